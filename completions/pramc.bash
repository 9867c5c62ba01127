# Completions of pramc for bash.

_pramc() {
    local word=${COMP_WORDS[COMP_CWORD]} before=${COMP_WORDS[COMP_CWORD - 1]} words= programs=
    COMPREPLY=()
    if [ "$COMP_CWORD" -eq 1 ]; then
        # made by gate/editors.py --write: commands
        words="check plan meaning cost steps rules run trace explore always compare grade expand fmt export exec explain help --help --version"
        # end
    else
        case $before in
        # made by gate/editors.py --write: values
        --input | --memory | --where | --ensure | --witness | --listing) ;;
        --map) words="identity affine:" ;;
        --under) words="erew crew common priority sum" ;;
        --format) words="text json csv gnu" ;;
        --size | --bound | --seconds | --random | --draw | --seed | --show | --schedule | --workers | --sweep | --from | --to | --only | --reserve | --bsp | --cells | --values | --permutations | --count | --time-at-most | --work-at-most | --procs-at-most) return ;;
        # end
        *)
            case ${COMP_WORDS[1]} in
            # made by gate/editors.py --write: options
            check) words="--size --format --explain --help" ;;
            plan) words="--size --explain --help" ;;
            meaning) words="--bound --seconds --input --memory --random --draw --seed --show --quiet --size --format --explain --help" ;;
            cost) words="--bound --seconds --input --memory --random --draw --seed --schedule --workers --lines --sweep --svg --size --format --explain --help" ;;
            steps) words="--bound --seconds --input --memory --random --draw --seed --from --to --locals --columns --svg --flow --only --html --size --format --explain --help" ;;
            rules) words="--bound --input --memory --random --draw --seed --size --format --explain --help" ;;
            run) words="--bound --input --memory --random --draw --seed --workers --map --reserve --show --quiet --size --format --explain --help" ;;
            trace) words="--bound --input --memory --random --draw --seed --workers --map --reserve --svg --outcome --lines --bsp --size --format --explain --help" ;;
            explore) words="--cells --values --permutations --random --draw --count --seed --where --ensure --shrink --witness --bound --under --workers --size --format --explain --help" ;;
            always) words="--cells --values --bound --under --size --format --explain --help" ;;
            compare) words="--cells --values --permutations --where --bound --input --random --draw --count --seed --only --time-at-most --work-at-most --size --format --explain --help" ;;
            grade) words="--cells --values --permutations --where --bound --input --random --draw --count --seed --only --time-at-most --work-at-most --procs-at-most --under --size --format --explain --help" ;;
            expand) words="--size --explain --help" ;;
            fmt) words="--check --stdout --explain --help" ;;
            export) words="--listing --to --size --explain --help" ;;
            exec) words="--bound --input --memory --random --draw --seed --workers --map --reserve --show --quiet --format --explain --help" ;;
            explain) words="E1 E2 E3 E4 E5 E6 E7 E8 E9 E10 E11 E12 E13 E14 E15 E16 E17 E18 E19 P1 P2 overflow divide-by-zero out-of-range too-wide read-conflict write-conflict check plan meaning cost steps rules explore always compare grade run trace expand fmt export exec explain language options --help" ;;
            help) words="check plan meaning cost steps rules run trace explore always compare grade expand fmt export exec explain" ;;
            # end
            *) return ;;
            esac
            [[ $word == -* || ${COMP_WORDS[1]} == explain || ${COMP_WORDS[1]} == help ]] || words=
            [ "${COMP_WORDS[1]}" = exec ] || programs=yes
            ;;
        esac
    fi
    if [ -n "$words" ]; then
        mapfile -t COMPREPLY < <(compgen -W "$words" -- "$word")
        [ "${COMPREPLY[*]}" != affine: ] || compopt -o nospace
    else
        compopt -o filenames
        if [ "$programs" ]; then
            # Programs and folders, and any file where there are none.
            mapfile -t COMPREPLY < <(compgen -f -X '!*.pram' -- "$word"; compgen -d -- "$word")
        fi
        [ "${#COMPREPLY[@]}" -ne 0 ] || mapfile -t COMPREPLY < <(compgen -f -- "$word")
    fi
}

complete -F _pramc pramc
