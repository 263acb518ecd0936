#compdef krakobran
# Completion of krakobran for zsh: the word, the kind of import and export, and else the names of files.
local -a commands
commands=(report summary import export check worse picture follow help)
if (( CURRENT == 2 )); then
    compadd -- $commands --help --version
elif [[ $words[CURRENT] == --* && $words[2] == report ]]; then
    compadd -- --help --version --csv --json
elif [[ $words[CURRENT-1] == --bits ]]; then
    compadd -- 8 10
elif [[ $words[CURRENT] == --* && $words[2] == summary ]]; then
    compadd -- --help --version --json --all
elif [[ $words[CURRENT] == --* ]]; then
    compadd -- --help --version
    [[ $words[2] != import ]] || compadd -- --bits --label
elif (( CURRENT == 3 )) && [[ $words[2] == (import|export) ]]; then
    compadd -- log owamp
elif (( CURRENT == 3 )) && [[ $words[2] == help ]]; then
    compadd -- $commands
else
    _files
fi
