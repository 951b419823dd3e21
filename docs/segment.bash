# Completion of the words of `segment` for bash: `. docs/segment.bash`, or a copy of this file in the folder
# of bash's completions. Behind `-c` the words of the language are completed.
_segment() {
    local word=${COMP_WORDS[COMP_CWORD]} before=${COMP_WORDS[COMP_CWORD - 1]}
    local commands='create run check grow shrink migrate stat draw dump names get load salvage lint language help'
    local options= more=
    COMPREPLY=()
    if [ "$COMP_CWORD" = 1 ]; then
        COMPREPLY=($(compgen -W "$commands --help --version" -- "$word"))
        return
    fi
    # the value of --mode=VALUE and of others stands in a word of its own behind the sign
    [ "$before" != = ] || before=${COMP_WORDS[COMP_CWORD - 2]}
    [ "$word" != = ] || { before=${COMP_WORDS[COMP_CWORD - 1]}; word=; }
    case $before in
        --mode)
            local modes='create_only open_only open_or_create open_read_only open_copy_on_write'
            COMPREPLY=($(compgen -W "$modes" -- "$word"))
            return ;;
        -c)
            local language=$(segment language 2> /dev/null | grep -o '^[a-z_]\+' | sort -u)
            COMPREPLY=($(compgen -W "$language" -- "${word#[\"\']}"))
            return ;;
        --size | --wait | --prefix | --most) return ;;
    esac
    case ${COMP_WORDS[1]} in
        run) options='-c -r --mode --read-only --size --replace --commit --strict --fail --numbered --wait' more=2 ;;
        check) options='--explain --quiet --wait' more=99 ;;
        create) options='--replace' more=1 ;;
        grow) options='--replace --wait' more=1 ;;
        shrink | migrate) options='--replace --wait' more=1 ;;
        draw) options='--html --all --wait' more=1 ;;
        dump) options='--capacities --json --wait' more=1 ;;
        names) options='--prefix --most --wait' more=1 ;;
        get) options='--wait' more=1 ;;
        load) options='--size --replace --wait' more=1 ;;
        stat | salvage) options='--wait' more=1 ;;
        help)
            COMPREPLY=($(compgen -W "$commands" -- "$word"))
            return ;;
        lint | language)
            COMPREPLY=($(compgen -W '--verbose --help' -- "$word"))
            return ;;
        *) return ;;
    esac
    if [[ $word == -* ]]; then
        COMPREPLY=($(compgen -W "$options --verbose --help" -- "$word"))
        return
    fi
    # files, but not in the place of a number
    [ "$COMP_CWORD" -le $((more + 1)) ] || [ "${COMP_WORDS[1]}" = run ] || [[ $before == -* ]] || return
    local IFS=$'\n'
    COMPREPLY=($(compgen -f -- "$word"))
}
complete -o filenames -F _segment segment
