# Completions for bash. tools/make-completions writes this file from what the programs tell: change it there.

_audiofile() {
    local program=${1##*/} word=${COMP_WORDS[COMP_CWORD]} before=${COMP_WORDS[COMP_CWORD - 1]}
    local words='' option='' start='' each index first=2 place=$COMP_CWORD

    # after < and > a file is meant: sound is read from standard input, and written to standard output
    if [[ $word == *[\<\>] || $before == *[\<\>\|] ]]; then
        compopt -o default
        return
    fi

    # a colon, as in an address, is a word of its own unless COMP_WORDBREAKS lacks it
    for ((index = 1; index < COMP_CWORD; index++)); do
        [[ ${COMP_WORDS[index]} == : ]] && ((place -= 2))
    done

    # a program without commands has its options at once
    [[ $program == audiofile-* ]] && first=1
    if ((COMP_CWORD < first)); then
        case $program in
        af) words='aplay arecord aset apass answer events meter log list help version' ;;
        afd) words='serve script exercise help version' ;;
        esac
        mapfile -t COMPREPLY < <(compgen -W "$words" -- "$word")
        return
    fi

    # each option as the program lists it, with what its value may be
    ((first == 2)) && program+=" ${COMP_WORDS[1]}"
    case $program in
    audiofile-meter)
        words='--device=NUMBER'
        ;;
    "af aplay")
        words='--device=0..7 --file=raw|au|wave --type=mu255|alaw|lin16|lin32 --gain=-30..30 --block=1..4000 --lead=0..60000 --time=0..4294967295 --ahead=20..4000 --preempt --drain --strict --order=big|little --wait=0..3600'
        ;;
    "af arecord")
        words='--frames=1..2147483647 --seconds=1..2147483 --device=0..7 --file=raw|au|wave --type=mu255|alaw|lin16|lin32 --gain=-30..30 --block=1..4000 --time=0..4294967295 --stop-peak=0..32768 --stop-blocks=1..1000000 --true-header --strict --order=big|little --wait=0..3600'
        ;;
    "af aset")
        words='--device=0..7 --input=on|off --input-gain=-30..30 --output=on|off --output-gain=-30..30 --hook=on|off --order=big|little --wait=0..3600'
        ;;
    "af apass")
        words='--blocks=1..1000000 --from-device=0..7 --to-device=0..7 --type=mu255|alaw|lin16|lin32 --gain=-30..30 --block=1..4000 --delay=0..3000 --slack=0..3000 --follow --order=big|little --wait=0..3600'
        ;;
    "af answer")
        words='--calls=1..1000 --greeting=COMMAND --message=COMMAND --device=0..7 --rings=1..20 --until=DIGITS --hang-up --wait=0..3600'
        ;;
    "af events")
        words='--device=0..7|all --kinds=ring,digit,loop,hook --count=1..1000000 --for=1..86400000 --order=big|little --wait=0..3600'
        ;;
    "af meter")
        words='--device=0..7 --every=1..60000 --count=1..1000000 --below=1..32768 --for=1..3600000 --order=big|little --wait=0..3600'
        ;;
    "af log")
        words='--every=1..86400 --into=COMMAND --count=1..1000000 --device=0..7 --file=raw|au|wave --type=mu255|alaw|lin16|lin32 --block=1..4000 --time=0..4294967295 --order=big|little --wait=0..3600'
        ;;
    "af list")
        words='--order=big|little --wait=0..3600'
        ;;
    "af help")
        ((place == 2)) && words='aplay arecord aset apass answer events meter log list'
        ;;
    "afd serve")
        ((place == 3)) && words='forever'
        ;;
    esac

    # the value of an option comes after =, which is a word of its own unless COMP_WORDBREAKS lacks it, or is the next word
    if [[ $word == = ]]; then
        option=$before word=''
    elif [[ $before == = ]]; then
        option=${COMP_WORDS[COMP_CWORD - 2]}
    elif [[ $word == --*=* ]]; then
        option=${word%%=*} start=${word%%=*}= word=${word#*=}
    elif [[ $before == --* && " $words" == *" $before="* ]]; then
        option=$before
    fi
    if [[ $option ]]; then
        for each in $words; do
            case $each in
            "$option=COMMAND") mapfile -t COMPREPLY < <(compgen -A command -A file -P "$start" -- "$word") ;;
            "$option="*"|"*)
                each=${each#*=}
                mapfile -t COMPREPLY < <(compgen -W "${each//|/ }" -P "$start" -- "$word")
                ;;
            esac
        done
        return
    fi

    # each option of a command is given at most once, and none after --
    for ((index = first; index < ${#COMP_WORDS[@]}; index++)); do
        ((index == COMP_CWORD)) && continue
        if [[ ${COMP_WORDS[index]} == -- ]] && ((index < COMP_CWORD)); then
            return
        fi
        for each in $words; do
            if [[ $first == 2 && ${COMP_WORDS[index]%%=*} == "${each%%=*}" ]]; then
                words=" $words "
                words=${words/" $each "/ }
            fi
        done
    done
    for each in $words; do
        option=${each%%=*}
        [[ $each == *=* ]] && option+="="
        [[ $option == "$word"* ]] && COMPREPLY+=("$option")
    done
    # the value follows without a blank
    if [[ ${#COMPREPLY[@]} -eq 1 && ${COMPREPLY[0]} == *= ]]; then
        compopt -o nospace
    fi
}

complete -F _audiofile af afd audiofile-meter
