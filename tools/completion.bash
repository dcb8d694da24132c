# Completion of the words of `lucid` and of the tools for bash. To use it: source tools/completion.bash
_lucid_files() {
    # Files of these endings, and folders.
    local ending word=${COMP_WORDS[COMP_CWORD]}
    COMPREPLY=($(compgen -d -- "$word"))
    for ending; do COMPREPLY+=($(compgen -f -X "!*.$ending" -- "$word")); done
    compopt -o filenames 2>/dev/null
}

_lucid_words() {
    COMPREPLY=($(compgen -W "$*" -- "${COMP_WORDS[COMP_CWORD]}"))
}

_lucid() {
    local at=$COMP_CWORD verb=${COMP_WORDS[1]} roles=
    COMPREPLY=()
    if [ "$at" -eq 1 ]; then
        _lucid_words check once expand layout run drive snap audit gen bench --help --version --prove
        return
    fi
    case $verb in
        check | expand) roles=P ;;
        once) roles=PN ;;
        layout) roles=PL ;;
        drive | snap) roles=PLT ;;
        audit) roles=PLQ ;;
        run) roles=MPLTQ ;;
        gen) roles=G ;;
    esac
    case ${roles:at-2:1} in
        P) _lucid_files luc ;;
        L) _lucid_files json ;;
        T) _lucid_files json ;;
        Q) [ "${COMP_WORDS[2]}" != placed ] && [ "$verb" = run ] || _lucid_files json ;;
        M) _lucid_words whole pipe placed ;;
        G) _lucid_words program limits scene ;;
        N) _lucid_words "$(sed -n 's/^[[:space:]]*event[[:space:]]\{1,\}\([A-Za-z_][A-Za-z0-9_]*\).*/\1/p' "${COMP_WORDS[2]}" 2>/dev/null)" ;;
    esac
}

_lucid_tool() {
    local at=$COMP_CWORD tool=${COMP_WORDS[0]##*/}
    # `lucid-tools json` completes as tools/json does
    if [ "$tool" = lucid-tools ]; then
        if [ "$at" -eq 1 ]; then
            COMPREPLY=()
            _lucid_words explain where stages fmt watch lsp follow cells cover mutants page picture json trace scenario
            return
        fi
        tool=${COMP_WORDS[1]} at=$((at - 1))
    fi
    tool=${tool#lucid-}
    COMPREPLY=()
    case $tool-$at in
        json-1) _lucid_words log layout audit drive snap ;;
        picture-1) _lucid_words log layout drive ;;
        picture-*)
            case ${COMP_WORDS[COMP_CWORD]} in
                --*) [ "${COMP_WORDS[1]}" = log ] && _lucid_words --switches --ticks --without --program --show --names ;;
                *) _lucid_files json log ;;
            esac
            ;;
        watch-*)
            case ${COMP_WORDS[COMP_CWORD]} in
                --*) _lucid_words --lucid --times ;;
                *) _lucid_files luc json ;;
            esac
            ;;
        fmt-*)
            case ${COMP_WORDS[COMP_CWORD]} in
                --*) _lucid_words --write --check ;;
                *) _lucid_files luc ;;
            esac
            ;;
        where-1 | page-1 | explain-1 | stages-1 | follow-1 | cells-1 | cover-1 | mutants-1) _lucid_files luc ;;
        stages-2) _lucid_files json ;;
        scenario-1) _lucid_words aging countmin dns firewall flowcache gateways nat reroute rip sro ;;
        explain-*)
            case ${COMP_WORDS[COMP_CWORD]} in
                --*) _lucid_words --all --lint --nodes --layout --placement --json --where --lucid ;;
                *) _lucid_files json ;;
            esac
            ;;
        where-2) _lucid_words byte token syntax: types: order: ;;
        follow-*)
            case ${COMP_WORDS[COMP_CWORD]} in
                --*) _lucid_words --back --json --log --lucid --show --names ;;
                *) _lucid_files json log ;;
            esac
            ;;
        cells-*)
            case ${COMP_WORDS[COMP_CWORD]} in
                --*) _lucid_words --switch --json --log --lucid --show --names ;;
                *) _lucid_files json log ;;
            esac
            ;;
        cover-*)
            case ${COMP_WORDS[COMP_CWORD]} in
                --*) _lucid_words --brief --lucid ;;
                *) _lucid_files json ;;
            esac
            ;;
        mutants-*)
            case ${COMP_WORDS[COMP_CWORD]} in
                --*) _lucid_words --runs --write --lucid ;;
                *) _lucid_files json py ;;
            esac
            ;;
        json-*)
            case ${COMP_WORDS[COMP_CWORD]} in
                --*) _lucid_words --limits --scenario --csv --program --show --names ;;
                *) _lucid_files json log ;;
            esac
            ;;
        trace-*)
            case ${COMP_WORDS[COMP_CWORD]} in
                --*) _lucid_words --event --switch --tick-us --stop --program --into ;;
                *) _lucid_files pcap pcapng csv json luc ;;
            esac
            ;;
        page-*)
            case ${COMP_WORDS[COMP_CWORD]} in
                --*) _lucid_words --lucid --cells --show --names ;;
                *) _lucid_files json ;;
            esac
            ;;
        *) _lucid_files log json luc ;;
    esac
}

complete -F _lucid lucid ./lucid
complete -F _lucid_tool lucid-tools lucid-fmt tools/fmt tools/watch tools/where tools/stages tools/follow tools/cells tools/cover tools/mutants tools/explain tools/json tools/picture tools/page tools/trace tools/scenario
