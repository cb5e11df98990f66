# The completion of fristen for bash: source <(fristen --bash-completion)
_fristen() {
    local word=${COMP_WORDS[COMP_CWORD]} before=${COMP_WORDS[COMP_CWORD - 1]}
    local command='' place=0 first='' later='' own='' files='' words name index
    COMPREPLY=()
    # --eeg=ja is three words.
    if [[ $word == '=' ]]; then
        word=''
    elif [[ $before == '=' ]]; then
        before=${COMP_WORDS[COMP_CWORD - 2]}
    fi
    for ((index = 1; index < COMP_CWORD; index++)); do
        case ${COMP_WORDS[index]} in
            --eeg | --stichtag)
                [[ ${COMP_WORDS[index + 1]} != '=' ]] || ((index++))
                ((index++))
                ;;
            -*) ;;
            *) if [[ -z $command ]]; then command=${COMP_WORDS[index]}; else ((place++)); fi ;;
        esac
    done
    command=${command,,} command=${command//_/-} command=${command#mf-}
    command=${command//ä/ae} command=${command//ö/oe} command=${command//ü/ue}
    case $command in
@ARMS@
    esac
    if [[ $before == --eeg ]]; then
        words='@EEG@'
    elif [[ $before == --stichtag ]]; then
        return
    elif [[ $word == -* ]]; then
        words="@OPTIONS@ $own"
        [[ -n $command ]] || words+=' @ALONE@'
    elif [[ -z $command || ($command == @(help|hilfe) && $place == 0) ]]; then
        words='@COMMANDS@'
        [[ -n $command ]] || words+=' hilfe help'
    elif [[ -n $files && $place == 0 ]]; then
        compopt -o filenames 2>/dev/null
        mapfile -t COMPREPLY < <(compgen -f -- "$word")
        return
    elif ((place == 0)); then
        words=$first
    else
        words=$later
    fi
    for name in $words; do
        [[ ${name,,} != "${word,,}"* ]] || COMPREPLY+=("$name")
    done
}
complete -F _fristen fristen
