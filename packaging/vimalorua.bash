# Completion of the words of vimalorua, for bash.

_vimalorua() {
    local word=${COMP_WORDS[COMP_CWORD]} before=${COMP_WORDS[COMP_CWORD - 1]} options=
    COMPREPLY=()
    if [ "$COMP_CWORD" -eq 1 ]; then
        mapfile -t COMPREPLY < <(compgen -W 'check frame changes write play selftest help --help --version' -- "$word")
        return
    fi
    local report='--report --report-to'
    case ${COMP_WORDS[1]} in
    check) options="$report --script-fonts" ;;
    frame) options='--at --size --storage --aspect --content --letters --scale --format --budget --script-fonts' ;;
    changes)
        options='--from --to --frames --step --rate --size --storage --aspect --content --letters --scale --budget'
        options+=" $report --progress --script-fonts"
        ;;
    write) options='--later --earlier' ;;
    selftest) options="--workers $report --progress" ;;
    play)
        options='--from --to --frames --step --rate --size --feeders --renderers --batch --again --times --ahead --bands'
        options+=" --format --matrix --chroma --changed --crop --budget --mode $report --index --progress --quiet-pipe --script-fonts"
        ;;
    esac
    case $before in
    --mode) mapfile -t COMPREPLY < <(compgen -W 'live settled' -- "$word") ;;
    --report) mapfile -t COMPREPLY < <(compgen -W 'text json none' -- "$word") ;;
    --report-to | --index)
        mapfile -t COMPREPLY < <(compgen -f -- "$word")
        compopt -o filenames 2> /dev/null
        ;;
    --format)
        case ${COMP_WORDS[1]} in
        play) mapfile -t COMPREPLY < <(compgen -W 'ppm pam rgba y4m' -- "$word") ;;
        *) mapfile -t COMPREPLY < <(compgen -W 'ppm pam rgba' -- "$word") ;;
        esac
        ;;
    --matrix) mapfile -t COMPREPLY < <(compgen -W 'script TV.601 PC.601 TV.709 PC.709 TV.240M PC.240M TV.FCC PC.FCC' -- "$word") ;;
    --chroma) mapfile -t COMPREPLY < <(compgen -W '420 444' -- "$word") ;;
    --rate) mapfile -t COMPREPLY < <(compgen -W '24000/1001 24 25 30000/1001 30 50 60000/1001 60' -- "$word") ;;
    --letters) mapfile -t COMPREPLY < <(compgen -W 'script aspect' -- "$word") ;;
    --size) mapfile -t COMPREPLY < <(compgen -W '640x360 1280x720 1920x1080 3840x2160' -- "$word") ;;
    --script-fonts | --changed | --crop | --progress | --quiet-pipe) mapfile -t COMPREPLY < <(compgen -W "$options" -- "$word") ;;
    --*) ;;
    *)
        case $word in
        -*) mapfile -t COMPREPLY < <(compgen -W "$options" -- "$word") ;;
        *)
            [ "${COMP_WORDS[1]}" = selftest ] || mapfile -t COMPREPLY < <(
                compgen -f -X '!*.@(ass|ssa|bdf|ttf|ttc|otf|otc|ASS|SSA|BDF|TTF|TTC|OTF|OTC)' -- "$word"
                compgen -d -- "$word"
            )
            compopt -o filenames 2> /dev/null
            ;;
        esac
        ;;
    esac
}

complete -F _vimalorua vimalorua
