# Completion of hub for bash: source this file. Written by share/make from the help texts.
_hub() {
    local word=${COMP_WORDS[COMP_CWORD]} words=
    if [ "$COMP_CWORD" -eq 1 ]; then
        words="new grow insert save edit remove find show test list export check share shares clear undo lint tidy pad default demo help"
    else
        case ${COMP_WORDS[1]} in
        new) words="large" ;;
        insert) words="only= party=" ;;
        save) words="anyway axes= buttons= party=" ;;
        edit) words="party=" ;;
        remove) words="party=" ;;
        find) words="party=" ;;
        show) words="axes= buttons= party=" ;;
        test) words="after2= after= axes2= axes= buttons2= buttons= events= from= party= seconds= uuid2= with=" ;;
        list) words="long" ;;
        export) words="digits party=" ;;
        pad) words="from=" ;;
        default) words="--csv axes= buttons= layout" ;;
        help) words="new grow insert save edit remove find show test list export check share shares clear undo lint tidy pad default demo help elements" ;;
        esac
    fi
    mapfile -t COMPREPLY < <(compgen -W "$words" -- "$word")
    case ${COMPREPLY-} in *=) compopt -o nospace ;; esac
}
complete -o default -F _hub hub
