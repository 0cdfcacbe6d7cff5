# Completions of bin/hrt for bash: source this file.
_hrt() {
    local word=${COMP_WORDS[COMP_CWORD]} words= files=no
    case "$COMP_CWORD ${COMP_WORDS[1]}" in
        '1 '*) words='run gen check json draw lib --prove --program --version --help' ;;
        *' run') words='' files=yes ;;
        *' gen') words='--seed --lanes --calls' files=no ;;
        *' check') words='--summary --prove' files=yes ;;
        *' json') words='--to-text' files=yes ;;
        *' draw') words='--script' files=yes ;;
        *' lib') words='--prove' files=no ;;
    esac
    mapfile -t COMPREPLY < <(compgen -W "$words" -- "$word"; [ "$files" = no ] || compgen -f -- "$word")
}
complete -o filenames -F _hrt hrt bin/hrt ./bin/hrt
