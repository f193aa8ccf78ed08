# Completion of slirpd's words for bash: its commands, the options that `slirpd --help` lists, places of the link, and files.
_slirpd() {
    local word=${COMP_WORDS[COMP_CWORD]} at=$((COMP_CWORD - 1)) command=${COMP_WORDS[1]} before lines
    COMPREPLY=()
    if ((COMP_CWORD == 1)); then
        mapfile -t COMPREPLY < <(compgen -W "serve replay drive help --help --version" -- "$word")
        return
    fi
    # bash parts a word at `:` and `=`, which are words of their own here
    [[ $word == [:=] ]] && at=$COMP_CWORD word=
    before=${COMP_WORDS[at]}
    case $before in
        =) before=${COMP_WORDS[at - 1]} ;;
        :) before=${COMP_WORDS[at - 1]}: ;;
    esac
    case $command:$before in
        replay:replay | *:unix:)
            compopt -o filenames
            mapfile -t COMPREPLY < <(compgen -f -- "$word")
            ;;
        *:--tftp)
            compopt -o filenames
            mapfile -t COMPREPLY < <(compgen -d -- "$word")
            ;;
        serve:--link)
            compopt -o nospace
            mapfile -t COMPREPLY < <(compgen -W "unix: tcp:" -- "$word")
            ;;
        serve:hostfwd | replay:hostfwd)
            compopt -o nospace
            mapfile -t COMPREPLY < <(compgen -W "tcp: udp:" -- "$word")
            ;;
        *:*: | *:guestfwd) ;;
        serve:* | replay:*)
            lines=$("${COMP_WORDS[0]}" --help 2> /dev/null | grep '^  --' | grep -v '^  --help\|^  --version')
            [[ $command == replay ]] && lines=$(grep -v ' serve: ' <<< "$lines")
            if [[ $word == -* ]]; then
                mapfile -t COMPREPLY < <(compgen -W "$(sed 's/^  \([^ ]*\) .*/\1/' <<< "$lines")" -- "$word")
            elif ! grep -q -e "^  $before [^ ]" <<< "$lines"; then      # else it is the value of an option
                compopt -o nospace
                mapfile -t COMPREPLY < <(compgen -W "tcp: udp: hostfwd= guestfwd=" -- "$word")
            fi
            ;;
    esac
}
complete -F _slirpd slirpd
