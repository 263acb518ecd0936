//! The definitions, word for word and without regard to speed, against which the reference is checked; and wrong
//! readings of them, each of which the generated inputs must find out.

use std::cell::RefCell;

use crate::boundary::{Meter, Place};
use crate::reference::{
    Answer, Answered, Counts, Degree, DegreeCounts, Figures, Gap, LateTime, Ratios, Read, Receiver, RecordAnswer, Step,
    Tally, Written, LISTING_ROOM,
};

/// A wrong reading.
#[derive(Clone, Copy, PartialEq, Eq, Debug)]
pub enum Mistake {
    // of the file
    LabelJudgedAfterLength,
    OctetsBeforeLength,
    OctetsBeforeCount,
    OctetsAfterSent,
    FirstOctetOnly,
    SevenFShown,
    SentJudgedAfterLength,
    ArrivalsJudgedAfterLength,
    TailJudgedLast,
    TimeBeforeNumber,
    NumbersBeforeTimes,
    NumberNarrowed,
    EqualTimesRefused,
    NoTimeBack,
    ThousandRefused,
    TimeAgainstNeighbour,
    TimeAgainstFirstArrivals,
    ShortListFilled,
    RoomBeforeArrivals,
    RoomForOneMore,
    FillsWholeList,
    EmptyLabelAtStart,
    WriterTimesDecideFive,
    WriterDifferBeforeFive,
    WriterArrivalsBeforeDiffer,
    WriterRoomFirst,
    // of what is measured
    NearestGreater,
    NeighbourOnly,
    CopyIsPosition,
    CopyOfLatest,
    CopyClosesRun,
    FirstHasNoJump,
    JumpAfterChange,
    LargestIsExtent,
    LargestCapped,
    OffsetOfInOrderOnly,
    OffsetFromAll,
    OffsetOfNeighbours,
    SizeOfNextPacket,
    LateTimeOfNeighbour,
    DirectionsExchanged,
    EqualTimesBefore,
    BeforeCutOff,
    AlwaysAfter,
    ZeroRunNotCounted,
    OpenRunCounted,
    TallyHundredOver,
    TallyCapped,
    GapByRecords,
    GapOfAllJumps,
    GapOfFirst,
    GapByPositions,
    GapAgainstDiscovery,
    GapAmongDiscovered,
    RatioZeroWithoutArrivals,
    RatioOverArrivals,
    DegreeMoreThanN,
    RecordFromZero,
    DegreeNineFirst,
    ListingOfRefused,
    ListingRoomForAny,
    MinusLost,
    MinusForNought,
    // of the receiver
    GreaterIsExact,
    DroppedIsBeyond,
    BeyondFromOwnJump,
    YoungestGreater,
    CopyKeepsTime,
    LastForGreatest,
    FullByFirstsOnly,
    FullAfterNumber,
    NumberAfterTime,
    InOrderBeforeCopy,
    NoJumpAfterCopy,
    BeyondWithoutGreater,
    UnusedJudged,
    UnusedCleared,
    NewestNotShifted,
    DroppedNotNoted,
    OpenRunKept,
    UnfitForgets(u8),
    FullIsUnfit,
    FreshKeepsSent,
    RefusedMarks,
}

impl Mistake {
    pub fn all() -> Vec<Mistake> {
        use Mistake::*;
        let mut all = vec![
            LabelJudgedAfterLength,
            OctetsBeforeLength,
            OctetsBeforeCount,
            OctetsAfterSent,
            FirstOctetOnly,
            SevenFShown,
            SentJudgedAfterLength,
            ArrivalsJudgedAfterLength,
            TailJudgedLast,
            TimeBeforeNumber,
            NumbersBeforeTimes,
            NumberNarrowed,
            EqualTimesRefused,
            NoTimeBack,
            ThousandRefused,
            TimeAgainstNeighbour,
            TimeAgainstFirstArrivals,
            ShortListFilled,
            RoomBeforeArrivals,
            RoomForOneMore,
            FillsWholeList,
            EmptyLabelAtStart,
            WriterTimesDecideFive,
            WriterDifferBeforeFive,
            WriterArrivalsBeforeDiffer,
            WriterRoomFirst,
            NearestGreater,
            NeighbourOnly,
            CopyIsPosition,
            CopyOfLatest,
            CopyClosesRun,
            FirstHasNoJump,
            JumpAfterChange,
            LargestIsExtent,
            LargestCapped,
            OffsetOfInOrderOnly,
            OffsetFromAll,
            OffsetOfNeighbours,
            SizeOfNextPacket,
            LateTimeOfNeighbour,
            DirectionsExchanged,
            EqualTimesBefore,
            BeforeCutOff,
            AlwaysAfter,
            ZeroRunNotCounted,
            OpenRunCounted,
            TallyHundredOver,
            TallyCapped,
            GapByRecords,
            GapOfAllJumps,
            GapOfFirst,
            GapByPositions,
            GapAgainstDiscovery,
            GapAmongDiscovered,
            RatioZeroWithoutArrivals,
            RatioOverArrivals,
            DegreeMoreThanN,
            RecordFromZero,
            DegreeNineFirst,
            ListingOfRefused,
            ListingRoomForAny,
            MinusLost,
            MinusForNought,
            GreaterIsExact,
            DroppedIsBeyond,
            BeyondFromOwnJump,
            YoungestGreater,
            CopyKeepsTime,
            LastForGreatest,
            FullByFirstsOnly,
            FullAfterNumber,
            NumberAfterTime,
            InOrderBeforeCopy,
            NoJumpAfterCopy,
            BeyondWithoutGreater,
            UnusedJudged,
            UnusedCleared,
            NewestNotShifted,
            DroppedNotNoted,
            OpenRunKept,
            FullIsUnfit,
            FreshKeepsSent,
            RefusedMarks,
        ];
        all.extend((0..13).map(UnfitForgets));
        all
    }
}

#[derive(Clone, Debug)]
struct Lists {
    label: Vec<u8>,
    sizes: Vec<u16>,
    arrivals: Vec<(u32, u64)>,
}

/// The definitions as a meter, right or with one mistake. The last file's answers are kept for the next call.
pub struct Definition {
    mistake: Option<Mistake>,
    #[allow(clippy::type_complexity)]
    last: RefCell<Option<(Vec<u8>, Result<Lists, u32>, Vec<Answer>)>>,
}

impl Definition {
    pub fn right() -> Definition {
        Definition { mistake: None, last: RefCell::new(None) }
    }

    pub fn wrong(mistake: Mistake) -> Definition {
        Definition { mistake: Some(mistake), last: RefCell::new(None) }
    }

    fn is(&self, mistake: Mistake) -> bool {
        self.mistake == Some(mistake)
    }

    /// A big-endian number of `width` octets at `at`.
    fn number_at(file: &[u8], at: usize, width: usize) -> Option<u64> {
        let mut number = 0;
        for place in at..at + width {
            number = number * 256 + u64::from(*file.get(place)?);
        }
        Some(number)
    }

    /// A count, judged by `fits`, and where its section of `width` octets each begins and ends.
    fn section(
        &self,
        file: &[u8],
        at: usize,
        width: usize,
        fits: impl Fn(u64) -> bool,
        (refusal, late): (u32, Mistake),
    ) -> Result<(usize, usize), u32> {
        let count = Self::number_at(file, at, 2).ok_or(1u32)?;
        let end = at + 2 + width * count as usize;
        if self.is(late) && end > file.len() {
            return Err(1);
        }
        if !fits(count) {
            return Err(refusal);
        }
        if end > file.len() {
            return Err(1);
        }
        Ok((at + 2, end))
    }

    /// Whether a time is over 1,000 below an earlier one.
    fn goes_back(&self, earlier: u64, time: u64) -> bool {
        let most = match self.mistake {
            Some(Mistake::NoTimeBack) => 0,
            Some(Mistake::ThousandRefused) => 999,
            _ => 1000,
        };
        earlier > time && earlier - time > most || self.is(Mistake::EqualTimesRefused) && earlier == time
    }

    /// How far a packet is stamped after its discontinuity, or before it.
    fn late_time(&self, since: u64, time: u64) -> LateTime {
        let (after, amount) = (time >= since, time.abs_diff(since));
        match self.mistake {
            Some(Mistake::DirectionsExchanged) if after => LateTime::Before(amount),
            Some(Mistake::DirectionsExchanged) => LateTime::After(amount),
            Some(Mistake::EqualTimesBefore) if amount == 0 => LateTime::Before(0),
            Some(Mistake::BeforeCutOff) if !after => LateTime::After(0),
            _ if after || self.is(Mistake::AlwaysAfter) => LateTime::After(amount),
            _ => LateTime::Before(amount),
        }
    }

    fn judge_in_turn(&self, arrivals: &[(u32, u64)], sent: usize) -> Result<(), u32> {
        let outside = |r: usize| {
            let number = if self.is(Mistake::NumberNarrowed) { arrivals[r].0 & 0xFFFF } else { arrivals[r].0 };
            number < 1 || number as usize > sent
        };
        let early = |r: usize| {
            let counted = |q: usize| match self.mistake {
                Some(Mistake::TimeAgainstNeighbour) => q + 1 == r,
                Some(Mistake::TimeAgainstFirstArrivals) => !arrivals[..q].iter().any(|a| a.0 == arrivals[q].0),
                _ => true,
            };
            (0..r).any(|q| self.goes_back(arrivals[q].1, arrivals[r].1) && counted(q))
        };
        if self.is(Mistake::NumbersBeforeTimes) && (0..arrivals.len()).any(outside) {
            return Err(6);
        }
        for r in 0..arrivals.len() {
            if self.is(Mistake::TimeBeforeNumber) && early(r) {
                return Err(7);
            }
            if outside(r) {
                return Err(6);
            }
            if early(r) {
                return Err(7);
            }
        }
        Ok(())
    }

    /// Whether some octet of a label lies outside hexadecimal 20 to 7E.
    fn octet_outside(&self, label: &[u8]) -> bool {
        let most = if self.is(Mistake::SevenFShown) { 0x7F } else { 0x7E };
        let looked_at = if self.is(Mistake::FirstOctetOnly) { label.len().min(1) } else { label.len() };
        label[..looked_at].iter().any(|&octet| octet < 0x20 || octet > most)
    }

    /// The label's octets, as many as the file has of them.
    fn judge_octets(&self, file: &[u8]) -> Result<(), u32> {
        let count = Self::number_at(file, 0, 2).unwrap_or(0) as usize;
        let octets: Vec<u8> = file.iter().skip(2).take(count).copied().collect();
        if self.octet_outside(&octets) {
            return Err(13);
        }
        Ok(())
    }

    fn decode(&self, file: &[u8]) -> Result<Lists, u32> {
        use Mistake::*;
        if self.is(OctetsBeforeCount) || self.is(OctetsBeforeLength) && Self::number_at(file, 0, 2) <= Some(64) {
            self.judge_octets(file)?;
        }
        let (label, label_end) = self.section(file, 0, 1, |n| n <= 64, (3, LabelJudgedAfterLength))?;
        if !self.is(OctetsAfterSent) {
            self.judge_octets(file)?;
        }
        let (sizes, sizes_end) =
            self.section(file, label_end, 2, |n| (1..=4096).contains(&n), (4, SentJudgedAfterLength))?;
        self.judge_octets(file)?;
        let (arrivals, end) = self.section(file, sizes_end, 12, |n| n <= 4096, (5, ArrivalsJudgedAfterLength))?;
        if end < file.len() && !self.is(TailJudgedLast) {
            return Err(2);
        }
        let value = |at, width| Self::number_at(file, at, width).unwrap();
        let mut lists = Lists {
            label: file[label..label_end].to_vec(),
            sizes: (sizes..sizes_end).step_by(2).map(|at| value(at, 2) as u16).collect(),
            arrivals: (arrivals..end).step_by(12).map(|at| (value(at, 4) as u32, value(at + 4, 8))).collect(),
        };
        self.judge_in_turn(&lists.arrivals, lists.sizes.len())?;
        if self.is(NumberNarrowed) {
            lists.arrivals.iter_mut().for_each(|a| a.0 &= 0xFFFF);
        }
        if end < file.len() {
            return Err(2);
        }
        Ok(lists)
    }

    /// Decodes and answers, or takes both from the last time.
    fn with<T>(&self, file: &[u8], call: impl FnOnce(Result<(&Lists, &[Answer]), u32>) -> T) -> T {
        let mut last = self.last.borrow_mut();
        if last.as_ref().is_none_or(|known| known.0 != file) {
            let lists = self.decode(file);
            let answers = lists.as_ref().map_or(Vec::new(), |lists| self.answers(&lists.sizes, &lists.arrivals));
            *last = Some((file.to_vec(), lists, answers));
        }
        let (_, lists, answers) = last.as_ref().unwrap();
        call(lists.as_ref().map(|lists| (lists, &answers[..])).map_err(|&refusal| refusal))
    }

    /// The answers of all records, each from the arrivals before it.
    fn answers(&self, sizes: &[u16], arrivals: &[(u32, u64)]) -> Vec<Answer> {
        (0..arrivals.len()).scan(Vec::new(), |firsts, r| Some(self.answer_to(sizes, arrivals, r, firsts))).collect()
    }

    /// The answer of the record at index r; `firsts` are the first arrivals before it and takes it in if it is one.
    fn answer_to(&self, sizes: &[u16], arrivals: &[(u32, u64)], r: usize, firsts: &mut Vec<(u32, u64)>) -> Answer {
        use Mistake::*;
        let (s, time) = arrivals[r];
        let mut earlier = arrivals[..r].iter();
        let copy = if self.is(CopyOfLatest) { earlier.rposition(|a| a.0 == s) } else { earlier.position(|a| a.0 == s) };
        if let Some(first) = copy {
            if self.is(CopyIsPosition) {
                firsts.push((s, time));
            }
            return Answer::Duplicate { first_record: first as u32 + 1 };
        }
        let mut next_expected = 1;
        for &(number, _) in firsts.iter() {
            if number >= next_expected || self.is(NeighbourOnly) {
                next_expected = number + 1;
            }
        }
        let answer = if s >= next_expected {
            let jump = if firsts.is_empty() && self.is(FirstHasNoJump) { 0 } else { s - next_expected };
            let jump = if self.is(JumpAfterChange) { jump + 1 } else { jump };
            Answer::InOrder { position: firsts.len() as u32 + 1, jump }
        } else {
            self.late_answer(sizes, firsts, s, time)
        };
        firsts.push((s, time));
        answer
    }

    /// The answer of a reordered packet from the first arrivals before it.
    fn late_answer(&self, sizes: &[u16], before: &[(u32, u64)], s: u32, time: u64) -> Answer {
        use Mistake::*;
        let position = before.len() as u32 + 1;
        let mut places = before.iter();
        let j = if self.is(NearestGreater) { places.rposition(|a| a.0 > s) } else { places.position(|a| a.0 > s) };
        let j = j.unwrap();
        let extent = position - (j as u32 + 1);
        let since = if self.is(LateTimeOfNeighbour) { before[before.len() - 1].1 } else { before[j].1 };
        let late_time = self.late_time(since, time);
        let largest_n = before.iter().rev().take_while(|a| a.0 > s).count() as u32;
        let in_order = |at: usize| before[..at].iter().all(|a| a.0 < before[at].0);
        let mut byte_offset = 0;
        for (at, earlier) in before.iter().enumerate() {
            let counted = match self.mistake {
                Some(OffsetOfInOrderOnly) => earlier.0 > s && in_order(at),
                Some(OffsetFromAll) => at >= j,
                Some(OffsetOfNeighbours) => at >= before.len() - largest_n as usize,
                _ => earlier.0 > s,
            };
            let next = usize::from(self.is(SizeOfNextPacket));
            if counted {
                byte_offset += u32::from(sizes[(earlier.0 as usize - 1 + next).min(sizes.len() - 1)]);
            }
        }
        let largest_n = match self.mistake {
            Some(LargestIsExtent) => extent,
            Some(LargestCapped) => largest_n.min(100),
            _ => largest_n,
        };
        Answer::Reordered { position, extent, late_time, byte_offset, largest_n }
    }

    fn count(&self, answers: &[Answer]) -> Counts {
        let mut counts = Counts::default();
        let close = |counts: &mut Counts| {
            counts.closed_runs += u32::from(counts.open_run > 0 || !self.is(Mistake::ZeroRunNotCounted));
            counts.squares += counts.open_run * counts.open_run;
            counts.open_run = 0;
        };
        for answer in answers {
            match answer {
                Answer::Duplicate { .. } => {
                    counts.duplicates += 1;
                    if self.is(Mistake::CopyClosesRun) {
                        close(&mut counts);
                    }
                }
                Answer::InOrder { .. } => {
                    counts.first_arrivals += 1;
                    counts.open_run += 1;
                }
                Answer::Reordered { .. } => {
                    counts.first_arrivals += 1;
                    counts.reordered += 1;
                    close(&mut counts);
                }
            }
        }
        if self.is(Mistake::OpenRunCounted) {
            let open = counts.open_run;
            close(&mut counts);
            counts.open_run = open;
        }
        counts
    }

    /// The positions of the discontinuities, rising.
    fn discontinuities(&self, answers: &[Answer]) -> Vec<u32> {
        let mut found: Vec<u32> = answers
            .iter()
            .filter_map(|answer| match *answer {
                Answer::Reordered { position, extent, .. } => Some(position - extent),
                Answer::InOrder { position, jump } if jump > 0 && self.is(Mistake::GapOfAllJumps) => Some(position),
                _ => None,
            })
            .collect();
        found.sort_unstable();
        found.dedup();
        found
    }

    /// The record of the first reordered arrival that has the discontinuity at this position as its own.
    fn discoverer(answers: &[Answer], wanted: u32) -> Option<usize> {
        answers
            .iter()
            .position(|a| matches!(*a, Answer::Reordered { position, extent, .. } if position - extent == wanted))
    }

    fn gap_of(&self, answers: &[Answer], index: usize) -> Option<u32> {
        let Answer::InOrder { position, .. } = answers[index] else { return None };
        let mut found = self.discontinuities(answers);
        if self.is(Mistake::GapAmongDiscovered) {
            let own = Self::discoverer(answers, position);
            found.retain(|&p| Self::discoverer(answers, p) <= own);
        }
        let place = found.iter().position(|&p| p == position)?;
        if place == 0 {
            return self.is(Mistake::GapOfFirst).then_some(position);
        }
        let before = found[place - 1];
        let earlier = Self::discoverer(answers, before) < Self::discoverer(answers, position);
        if earlier == self.is(Mistake::GapAgainstDiscovery) && !self.is(Mistake::GapByPositions) {
            return None;
        }
        if self.is(Mistake::GapByRecords) {
            let record = |wanted: u32| {
                answers.iter().position(|a| matches!(*a, Answer::InOrder { position, .. } if position == wanted))
            };
            return Some((record(position)? - record(before)?) as u32);
        }
        Some(position - before)
    }

    /// Part over L, where part counts the reordered packets that `counted` holds of, by largest n.
    /// The two counts of a ratio: the reordered packets that are counted, and L.
    fn parts(&self, answers: &[Answer], counted: impl Fn(u32) -> bool) -> (usize, usize) {
        let part = answers
            .iter()
            .filter(|answer| matches!(answer, Answer::Reordered { largest_n, .. } if counted(*largest_n)))
            .count();
        let firsts = answers
            .iter()
            .filter(|answer| !matches!(answer, Answer::Duplicate { .. }) || self.is(Mistake::RatioOverArrivals))
            .count();
        (part, firsts)
    }

    fn ratio(&self, answers: &[Answer], counted: impl Fn(u32) -> bool) -> Option<f64> {
        let (part, firsts) = self.parts(answers, counted);
        if firsts == 0 {
            return self.is(Mistake::RatioZeroWithoutArrivals).then_some(0.0);
        }
        Some(part as f64 / firsts as f64)
    }

    fn reordered_at_least(&self, n: u32) -> impl Fn(u32) -> bool {
        let more = u32::from(self.is(Mistake::DegreeMoreThanN));
        move |largest| largest >= n + more
    }

    fn record_index(&self, lists: &Lists, record: u32) -> Result<usize, u32> {
        let most = lists.arrivals.len() as u32;
        if self.is(Mistake::RecordFromZero) && record == 0 && most > 0 {
            return Ok(0);
        }
        if record < 1 || record > most {
            Err(9)
        } else {
            Ok(record as usize - 1)
        }
    }

    /// The octets of a file, all in one list.
    fn octets(label: &[u8], sizes: &[u16], numbers: &[u32], times: &[u64]) -> Vec<u8> {
        let mut octets = Vec::new();
        let mut put = |value: u64, width: u32| {
            for place in (0..width).rev() {
                octets.push((value >> (8 * place)) as u8);
            }
        };
        put(label.len() as u64, 2);
        label.iter().for_each(|&octet| put(u64::from(octet), 1));
        put(sizes.len() as u64, 2);
        sizes.iter().for_each(|&size| put(u64::from(size), 2));
        put(numbers.len() as u64, 2);
        for (&number, &time) in numbers.iter().zip(times) {
            put(u64::from(number), 4);
            put(time, 8);
        }
        octets
    }

    fn judge_writer(
        &self,
        label: &[u8],
        sizes: &[u16],
        numbers: &[u32],
        times: &[u64],
        room: usize,
    ) -> Result<(), u32> {
        use Mistake::*;
        let length = 6 + label.len() + 2 * sizes.len() + 12 * numbers.len();
        let differ = numbers.len() != times.len();
        let arrivals: Vec<(u32, u64)> = numbers.iter().copied().zip(times.iter().copied()).collect();
        let many = if self.is(WriterTimesDecideFive) { numbers.len().max(times.len()) } else { numbers.len() };
        let steps = [
            (self.is(WriterRoomFirst) && length > room, 8),
            (self.is(OctetsBeforeCount) && self.octet_outside(label), 13),
            (label.len() > 64, 3),
            (!self.is(OctetsAfterSent) && self.octet_outside(label), 13),
            (sizes.is_empty() || sizes.len() > 4096, 4),
            (self.octet_outside(label), 13),
            (self.is(WriterDifferBeforeFive) && differ, 12),
            (many > 4096, 5),
            (differ && !self.is(WriterArrivalsBeforeDiffer), 12),
            (self.is(RoomBeforeArrivals) && length > room, 8),
        ];
        if let Some(&(_, refusal)) = steps.iter().find(|step| step.0) {
            return Err(refusal);
        }
        self.judge_in_turn(&arrivals, sizes.len())?;
        if differ {
            return Err(12);
        }
        if length + usize::from(self.is(RoomForOneMore)) > room {
            return Err(8);
        }
        Ok(())
    }

    fn text(&self, lists: &Lists, answers: &[Answer]) -> String {
        let mut text = format!("sent {} arrivals {}\n", lists.sizes.len(), lists.arrivals.len());
        for (index, answer) in answers.iter().enumerate() {
            text += &format!("{} {} ", index + 1, lists.arrivals[index].0);
            text += &match answer {
                Answer::Duplicate { first_record } => format!("copy {first_record}\n"),
                Answer::InOrder { position, jump } => format!("in {position} {jump}\n"),
                Answer::Reordered { position, extent, late_time, byte_offset, largest_n } => {
                    let late_time = match *late_time {
                        LateTime::Before(amount) if !self.is(Mistake::MinusLost) => format!("-{amount}"),
                        LateTime::After(0) if self.is(Mistake::MinusForNought) => "-0".to_string(),
                        LateTime::Before(amount) | LateTime::After(amount) => amount.to_string(),
                    };
                    format!("late {position} {extent} {late_time} {byte_offset} {largest_n}\n")
                }
            };
        }
        let c = self.count(answers);
        text + &format!(
            "end {} {} {} {} {} {}\n",
            c.first_arrivals, c.reordered, c.duplicates, c.closed_runs, c.squares, c.open_run
        )
    }
}

/// What is found in a file, or the refusal.
fn found(known: Result<&Lists, u32>) -> Read {
    match known {
        Err(refusal) => Read { refusal, label: 0, sent: 0, arrivals: 0 },
        Ok(lists) => Read {
            refusal: 0,
            label: lists.label.len() as u32,
            sent: lists.sizes.len() as u32,
            arrivals: lists.arrivals.len() as u32,
        },
    }
}

impl Meter for Definition {
    fn check(&self, file: &[u8]) -> Read {
        self.with(file, |known| found(known.map(|(lists, _)| lists)))
    }

    fn read(&self, file: &[u8], sizes: &mut [u16], numbers: &mut [u32], times: &mut [u64]) -> Read {
        let refused = |refusal| found(Err(refusal));
        self.with(file, |known| {
            let lists = match known {
                Ok((lists, _)) => lists,
                Err(refusal) => return refused(refusal),
            };
            let (k, a) = (lists.sizes.len(), lists.arrivals.len());
            let short = sizes.len() < k || numbers.len() < a || times.len() < a;
            if short && !self.is(Mistake::ShortListFilled) {
                return refused(8);
            }
            sizes.iter_mut().zip(&lists.sizes).for_each(|(place, &size)| *place = size);
            numbers.iter_mut().zip(&lists.arrivals).for_each(|(place, a)| *place = a.0);
            times.iter_mut().zip(&lists.arrivals).for_each(|(place, a)| *place = a.1);
            if short {
                return refused(8);
            }
            if self.is(Mistake::FillsWholeList) {
                times[a..].fill(0);
            }
            found(Ok(lists))
        })
    }

    fn label(&self, file: &[u8]) -> Place {
        self.with(file, |known| match known {
            Err(refusal) => Place { refusal, start: 0, length: 0 },
            Ok((lists, _)) if lists.label.is_empty() && self.is(Mistake::EmptyLabelAtStart) => {
                Place { refusal: 0, start: 0, length: 0 }
            }
            Ok((lists, _)) => Place { refusal: 0, start: 2, length: lists.label.len() },
        })
    }

    fn write(&self, label: &[u8], sizes: &[u16], numbers: &[u32], times: &[u64], out: &mut [u8]) -> Written {
        if let Err(refusal) = self.judge_writer(label, sizes, numbers, times, out.len()) {
            return Written { refusal, length: 0 };
        }
        let octets = Self::octets(label, sizes, numbers, times);
        out[..octets.len()].copy_from_slice(&octets);
        Written { refusal: 0, length: octets.len() as u32 }
    }

    fn answer(&self, file: &[u8], record: u32) -> RecordAnswer {
        self.with(file, |known| {
            let found = known.and_then(|(lists, answers)| self.record_index(lists, record).map(|index| answers[index]));
            match found {
                Ok(answer) => RecordAnswer { refusal: 0, answer },
                Err(refusal) => RecordAnswer { refusal, answer: Answer::InOrder { position: 0, jump: 0 } },
            }
        })
    }

    fn counts(&self, file: &[u8]) -> Counts {
        self.with(file, |known| match known {
            Ok((_, answers)) => self.count(answers),
            Err(refusal) => Counts { refusal, ..Counts::default() },
        })
    }

    fn tally(&self, file: &[u8]) -> Tally {
        self.with(file, |known| {
            let mut places = [0; 101];
            let most = if self.is(Mistake::TallyHundredOver) { 99 } else { 100 };
            for answer in known.map_or(&[][..], |(_, answers)| answers) {
                if let Answer::Reordered { extent, .. } = *answer {
                    let over = if self.is(Mistake::TallyCapped) { 100 } else { 0 };
                    places[if extent <= most { extent } else { over } as usize] += 1;
                }
            }
            Tally { refusal: known.err().unwrap_or(0), places }
        })
    }

    fn gap(&self, file: &[u8], record: u32) -> Gap {
        self.with(file, |known| {
            let found = known
                .and_then(|(lists, answers)| self.record_index(lists, record).map(|index| self.gap_of(answers, index)));
            match found {
                Ok(gap) => Gap { refusal: 0, gap },
                Err(refusal) => Gap { refusal, gap: None },
            }
        })
    }

    fn n_reordered(&self, file: &[u8], n: u32) -> DegreeCounts {
        self.with(file, |known| match known {
            Err(refusal) => DegreeCounts { refusal, ..DegreeCounts::default() },
            Ok(_) if !(1..=100).contains(&n) => DegreeCounts { refusal: 9, ..DegreeCounts::default() },
            Ok((_, answers)) => {
                let (reordered, firsts) = self.parts(answers, self.reordered_at_least(n));
                DegreeCounts { refusal: 0, reordered: reordered as u32, first_arrivals: firsts as u32 }
            }
        })
    }

    fn degree(&self, file: &[u8], n: u32) -> Degree {
        let outside = !(1..=100).contains(&n);
        if outside && self.is(Mistake::DegreeNineFirst) {
            return Degree { refusal: 9, ratio: None };
        }
        self.with(file, |known| match known {
            Err(refusal) => Degree { refusal, ratio: None },
            Ok(_) if outside => Degree { refusal: 9, ratio: None },
            Ok((_, answers)) => Degree { refusal: 0, ratio: self.ratio(answers, self.reordered_at_least(n)) },
        })
    }

    fn ratios(&self, file: &[u8]) -> Ratios {
        self.with(file, |known| match known {
            Err(refusal) => Ratios { refusal, figures: None },
            Ok((_, answers)) => {
                let all = self.ratio(answers, |_| true);
                let one = self.ratio(answers, self.reordered_at_least(1));
                let three = self.ratio(answers, self.reordered_at_least(3));
                let figures = all.zip(one).zip(three);
                let figures =
                    figures.map(|((reordered, degree_1), degree_3)| Figures { reordered, degree_1, degree_3 });
                Ratios { refusal: 0, figures }
            }
        })
    }

    fn listing(&self, file: &[u8], out: &mut [u8]) -> Written {
        self.with(file, |known| {
            let (refusal, text) = match known {
                Ok((lists, answers)) => (0, self.text(lists, answers)),
                Err(refusal) if self.is(Mistake::ListingOfRefused) => (refusal, format!("refused {refusal}\n")),
                Err(refusal) => (refusal, String::new()),
            };
            if out.len() < text.len() || self.is(Mistake::ListingRoomForAny) && out.len() < LISTING_ROOM {
                return Written { refusal: if refusal == 0 { 8 } else { refusal }, length: 0 };
            }
            out[..text.len()].copy_from_slice(text.as_bytes());
            Written { refusal, length: text.len() as u32 }
        })
    }

    fn fresh(&self, receiver: &mut Receiver, sent: u32) -> u32 {
        let refused = sent == 0 || sent > 4096;
        if !refused || self.is(Mistake::FreshKeepsSent) {
            *receiver = Receiver::fresh(1).receiver;
            receiver.sent = sent;
        }
        if refused {
            4
        } else {
            0
        }
    }

    fn step(&self, receiver: &mut Receiver, number: u32, time: u64) -> Answered {
        match self.step_of(receiver, number, time) {
            Err(refusal) => {
                if self.is(Mistake::RefusedMarks) && (1..=4096).contains(&number) {
                    receiver.mark(number);
                }
                Answered { refusal, answer: Step::InOrder { jump: 0 } }
            }
            Ok((answer, after)) => {
                *receiver = after;
                Answered { refusal: 0, answer }
            }
        }
    }
}

/// The thirteen conditions of an unfit state, in the order of the scope, each asked by itself.
pub fn unfit_ways(r: &Receiver) -> [bool; 13] {
    let (k, l) = (u64::from(r.sent), u64::from(r.first_arrivals));
    let kept = (r.jumps.kept as usize).min(Receiver::WINDOW);
    let some = |bad: &dyn Fn(usize) -> bool| (0..kept).any(bad);
    let outside = |value: u64, most: u64| value < 1 || value > most;
    [
        outside(k, 4096),
        l > k,
        l + u64::from(r.duplicates) > 4096,
        u64::from(r.in_order) > l,
        r.open_run > r.in_order,
        u64::from(r.closed_runs) > l,
        r.squares > 16_777_216,
        outside(u64::from(r.next_expected), k + 1),
        r.jumps.kept > 64,
        some(&|p| outside(u64::from(r.jumps.positions[p]), l)),
        some(&|p| outside(u64::from(r.jumps.numbers[p]), k)),
        some(&|p| r.jumps.times[p] > r.greatest_time),
        u64::from(r.jumps.dropped) > k,
    ]
}

impl Definition {
    fn unfit(&self, r: &Receiver) -> bool {
        let judged = |r: &Receiver| {
            let ways = unfit_ways(r);
            (0..13).any(|way| ways[way] && !self.is(Mistake::UnfitForgets(way as u8)))
        };
        if self.is(Mistake::UnusedJudged) && r.jumps.kept < 64 && r.first_arrivals > 0 {
            let mut all = r.clone();
            all.jumps.kept = 64;
            let empty = |p: usize| (all.jumps.positions[p], all.jumps.numbers[p], all.jumps.times[p]) == (0, 0, 0);
            if (r.jumps.kept as usize..64).all(|p| !empty(p)) && judged(&all) {
                return true;
            }
        }
        judged(r)
    }

    /// The step's answer and the new state, or its refusal. Written on a list of jumps and copied back.
    fn step_of(&self, r: &Receiver, number: u32, time: u64) -> Result<(Step, Receiver), u32> {
        use Mistake::*;
        if self.unfit(r) {
            return Err(10);
        }
        let accepted = r.first_arrivals.wrapping_add(r.duplicates);
        let full = if self.is(FullByFirstsOnly) { r.first_arrivals >= 4096 } else { accepted >= 4096 };
        let outside = number < 1 || number > r.sent;
        if full && !(self.is(FullAfterNumber) && outside) {
            return Err(if self.is(FullIsUnfit) { 10 } else { 11 });
        }
        let early = self.goes_back(r.greatest_time, time);
        if self.is(NumberAfterTime) && early {
            return Err(7);
        }
        if outside {
            return Err(6);
        }
        if early {
            return Err(7);
        }
        // A forgotten condition may leave numbers that no place holds; such a state is only ever compared as refused.
        if number > 4096 || r.jumps.kept > 64 {
            return Ok((Step::Duplicate, r.clone()));
        }
        let mut jumps: Vec<(u16, u16, u64)> =
            (0..r.jumps.kept as usize).map(|p| (r.jumps.positions[p], r.jumps.numbers[p], r.jumps.times[p])).collect();
        let mut after = r.clone();
        let greatest = if self.is(LastForGreatest) { time } else { r.greatest_time.max(time) };
        let in_order = number >= r.next_expected;
        if r.marked(number) && !(in_order && self.is(InOrderBeforeCopy)) {
            after.duplicates = r.duplicates.wrapping_add(1);
            if !self.is(CopyKeepsTime) {
                after.greatest_time = greatest;
            }
            return Ok((Step::Duplicate, after));
        }
        let l = r.first_arrivals.wrapping_add(1);
        after.first_arrivals = l;
        after.mark(number);
        after.greatest_time = greatest;
        if in_order {
            let jump = number - r.next_expected;
            after.in_order = r.in_order.wrapping_add(1);
            after.open_run = r.open_run.wrapping_add(1);
            after.next_expected = number + 1;
            if jump > 0 && !(self.is(NoJumpAfterCopy) && r.duplicates > 0) {
                jumps.push((l as u16, number as u16, time));
            }
            if jumps.len() > 64 {
                let (_, dropped, _) = jumps.remove(0);
                if !self.is(DroppedNotNoted) {
                    after.jumps.dropped = u32::from(dropped);
                }
                if self.is(NewestNotShifted) {
                    jumps.swap(62, 63);
                }
            }
            for (p, &(position, number, time)) in jumps.iter().enumerate() {
                after.jumps.positions[p] = position;
                after.jumps.numbers[p] = number;
                after.jumps.times[p] = time;
            }
            after.jumps.kept = jumps.len() as u32;
            if self.is(UnusedCleared) {
                after.jumps.times[jumps.len()..].fill(0);
            }
            return Ok((Step::InOrder { jump }, after));
        }
        let mut kept = jumps.iter();
        let greater = |jump: &(u16, u16, u64)| u32::from(jump.1) > number;
        let own =
            if self.is(YoungestGreater) { kept.rfind(|jump| greater(jump)) } else { kept.find(|jump| greater(jump)) };
        after.closed_runs = r.closed_runs.wrapping_add(1);
        after.squares = r.squares.wrapping_add(r.open_run.wrapping_mul(r.open_run));
        if !self.is(OpenRunKept) {
            after.open_run = 0;
        }
        let beyond = number < r.jumps.dropped || self.is(DroppedIsBeyond) && number == r.jumps.dropped;
        if own.is_none() && beyond && !jumps.is_empty() && self.is(BeyondWithoutGreater) {
            let late_time = self.late_time(jumps[0].2, time);
            return Ok((Step::Beyond { extent: l.wrapping_sub(u32::from(jumps[0].0)), late_time }, after));
        }
        let own = *own.ok_or(10u32)?;
        let beyond = beyond && !self.is(GreaterIsExact);
        let from = if beyond && !self.is(BeyondFromOwnJump) { jumps[0] } else { own };
        let (extent, late_time) = (l.wrapping_sub(u32::from(from.0)), self.late_time(from.2, time));
        let answer = if beyond { Step::Beyond { extent, late_time } } else { Step::Exact { extent, late_time } };
        Ok((answer, after))
    }
}

/// What a run of arrivals from a fresh receiver must give, made from K and the arrivals alone.
pub struct Account {
    sent: u32,
    accepted: Vec<(u32, u64)>,
    answers: Vec<Answer>,
    firsts: Vec<(u32, u64)>,
    definition: Definition,
    sizes: Vec<u16>,
}

impl Account {
    pub fn new(sent: u32) -> Account {
        Account {
            sent,
            accepted: Vec::new(),
            answers: Vec::new(),
            firsts: Vec::new(),
            definition: Definition::right(),
            sizes: vec![0; sent as usize],
        }
    }

    /// The answer that an arrival must have.
    pub fn arrive(&mut self, number: u32, time: u64) -> Answered {
        let refused = |refusal| Answered { refusal, answer: Step::InOrder { jump: 0 } };
        if self.accepted.len() == 4096 {
            return refused(11);
        }
        if number < 1 || number > self.sent {
            return refused(6);
        }
        if self.accepted.iter().any(|earlier| self.definition.goes_back(earlier.1, time)) {
            return refused(7);
        }
        self.accepted.push((number, time));
        let r = self.accepted.len() - 1;
        let answer = self.definition.answer_to(&self.sizes, &self.accepted, r, &mut self.firsts);
        self.answers.push(answer);
        let answer = match answer {
            Answer::Duplicate { .. } => Step::Duplicate,
            Answer::InOrder { jump, .. } => Step::InOrder { jump },
            Answer::Reordered { position, extent, late_time, .. } => self.late(position, extent, late_time),
        };
        Answered { refusal: 0, answer }
    }

    /// Exact exactly if the discontinuity is among the last 64 jumps.
    fn late(&self, position: u32, extent: u32, late_time: LateTime) -> Step {
        let jumps: Vec<u32> = self
            .answers
            .iter()
            .filter_map(|answer| match *answer {
                Answer::InOrder { position, jump } if jump > 0 => Some(position),
                _ => None,
            })
            .collect();
        let window = &jumps[jumps.len().saturating_sub(64)..];
        if window.contains(&(position - extent)) {
            return Step::Exact { extent, late_time };
        }
        let shown = position - window[0];
        assert!(extent > shown, "beyond the window the true extent is greater");
        let (since, time) = (self.firsts[window[0] as usize - 1].1, self.firsts[position as usize - 1].1);
        Step::Beyond { extent: shown, late_time: self.definition.late_time(since, time) }
    }

    /// L, duplicates, in order, open run, closed runs, squares; and the sum of the three kinds is what was accepted.
    pub fn figures(&self) -> [u32; 6] {
        let c = self.definition.count(&self.answers);
        let in_order = self.answers.iter().filter(|a| matches!(a, Answer::InOrder { .. })).count() as u32;
        assert_eq!((c.duplicates + in_order + c.reordered) as usize, self.accepted.len());
        [c.first_arrivals, c.duplicates, in_order, c.open_run, c.closed_runs, c.squares]
    }
}
