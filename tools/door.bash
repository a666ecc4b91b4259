# shellcheck shell=bash
# What the scripts answer before their program is built: bad command lines, help, and files that are not there, where that
# is sure. `answer_at_once` ends the script with the program's status, or comes back where only the program can tell.
#
# The script sets `name`, its program. `stress/door` compares these answers with those of the programs.

# Of each command: the least and the most words that are no options (-: any number), the options that take a value, and
# those that take none.
declare -A operands=() valued=() bare=()

# The options that name a configuration.
config='--pages --page-size --manager'

find_commands() {
    case $name in
        ivy)
            operands=([run]='1 1' [step]='2 2' [sim]='1 1' [check]='1 1')
            valued=([run]="$config --turns --capacity --pulse" [step]="$config" [sim]="$config --seed --moves" [check]='')
            ;;
        ivyscope)
            operands=([explain]='1 1' [run]='1 1' [schedule]='1 2' [chart]='1 2' [counts]='1 2' [order]='1 2')
            operands+=([check]='1 1' [settle]='1 1' [search]='1 1' [trace]='1 2')
            valued=([run]="$config --turns --capacity --pulse --logs" [schedule]="$config --seed --moves")
            valued+=([chart]="$config --seed --moves --page --from --to" [trace]="$config --seed --moves" [counts]="$config --seed --moves" [explain]='' [check]='')
            valued+=([order]="$config --seed --moves" [settle]="$config --seed --moves" [search]="$config --states --until")
            bare=([run]='--strict --history --counts' [schedule]='--shortest' [counts]='--both' [chart]='--all' [trace]='--json')
            ;;
        ivynode)
            operands=([run]='2 2' [join]='1 -' [join-own]='0 -' [router]='0 0')
            valued=([run]="$config --log --pulse-ms --turns --kept" [router]='--lose --repeat --reorder --seed')
            valued+=([join]='' [join-own]='')
            bare=([run]='--sync')
            ;;
    esac
}

usage() {
    sed -n "/^Usage of $name:/,/^$/p" "$root/tools/usage"
}

# Ends the script as the program would at a bad command line; what is wrong is told but of `ivy`, whose text is fixed.
refuse() {
    if [[ $name == ivy ]]; then
        say 'bad command line'
    else
        say "bad command line: $1 (see --help)"
    fi
    exit 2
}

# `ivy` has no help of its own: the script tells how it is used, whether the program is built or not.
tell_usage_of_ivy() {
    usage >&2
    say 'bad command line'
    exit 2
}

has_word() {
    [[ " $1 " == *" $2 "* ]]
}

# Reads the words behind a command. `plain` gets those that are no options, `fine` whether the values of all options are
# such as suit. It fails where only the program can tell.
read_words() {
    local command=$1 word option seen=' '
    shift
    plain=() fine=yes
    while (($#)); do
        word=$1
        shift
        case $word in
            --help | -h | --version | -V | --) return 1 ;;
            --unproved) refuse '--unproved stands before the command' ;;
            --*=*)
                option=${word%%=*} word=${word#*=}
                has_word "${valued[$command]}" "$option" || return 1
                ;;
            --*)
                option=$word
                if has_word "${bare[$command]-}" "$option"; then
                    [[ $seen != *" $option "* ]] || return 1
                    seen+="$option "
                    continue
                fi
                has_word "${valued[$command]}" "$option" || refuse "\`$command\` has no option \`$option\`"
                (($#)) || refuse "\`$option\` lacks its value"
                word=$1
                shift
                ;;
            -?*) return 1 ;;
            *)
                plain+=("$word")
                continue
                ;;
        esac
        [[ $seen != *" $option "* && $word != -* ]] || return 1
        seen+="$option "
        case $option in
            --manager) [[ $word == fixed || $word == dynamic || $word == steady && $name != ivy ]] || fine= ;;
            --logs | --log | --until) ;;
            *) [[ $word =~ ^[1-9][0-9]{0,4}$ ]] || fine= ;;
        esac
    done
}

# Ends the script where the answer is sure.
answer_at_once() {
    local command=${1-} plain fine bounds least most
    find_commands
    case $command in
        '') (($#)) || refuse 'a command is missing' ;;
        --help | -h | help)
            [[ $name != ivy ]] || tell_usage_of_ivy
            [[ $command != help || $name == ivynode ]] || refuse "\`$command\` is no command"
            usage
            exit 0
            ;;
        -*) return ;;
    esac
    [[ -n $command && -n ${operands[$command]-} ]] || refuse "\`$command\` is no command"
    read_words "$@" || return 0
    read -r least most <<<"${operands[$command]}"
    ((${#plain[@]} >= least)) || refuse "\`$command\` lacks a file"
    [[ $most == - ]] || ((${#plain[@]} <= most)) || refuse "\`$command\` takes no further word \`${plain[-1]}\`"
    [[ $command != run || $name != ivynode || ${plain[1]} =~ ^[0-9]+$ ]] || refuse 'the node is no number'
    [[ $fine && ${#plain[@]} -gt 0 && $command != join-own && ! -e ${plain[0]} ]] || return 0
    say "cannot read ${plain[0]}"
    exit 2
}
