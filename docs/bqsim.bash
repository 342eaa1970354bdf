# Completion of bqsim for bash: source this file. tests/pages.py makes it of the program's help.
_bqsim() {
    local word=${COMP_WORDS[COMP_CWORD]} command=${COMP_WORDS[1]} before=$((COMP_CWORD - 1)) words="" files=no
    [ "$word" != = ] || word=""
    [ "${COMP_WORDS[before]}" != = ] || before=$((before - 1))
    if [ "$COMP_CWORD" -eq 1 ]; then
        words="asm check dis import par replay run simulate timeline help --help --version"
    else
        case $command in
            asm) words="--hook --maps --format --max-bytes --help" files=yes ;;
            check) words="--hook --maps --format --max-bytes --explain --json --max-steps --helpers --hooks --max-maps --max-map-bytes --max-counters --image --help" files=yes ;;
            dis) words="--hook --maps --format --max-bytes --slots --help" files=yes ;;
            import) words="--hook --maps --format --max-bytes --help" files=yes ;;
            par) words="--rule --processors --ticks --help" files=no ;;
            replay) words="--max-bytes --help" files=yes ;;
            run) words="--hook --maps --format --max-bytes --ctx --set --map --time --processor --counter --trace --repeat --help" files=yes ;;
            simulate) words="--help --discipline --processors --duration --seed --place --preempt --pull --seeds --against --as --from --to --cpus --tasks --width --theme --title --max-bytes --max-events" files=yes ;;
            timeline) words="--max-bytes --help --as --from --to --cpus --tasks --width --theme --title" files=yes ;;
            help) words="asm check dis import par replay run simulate timeline" ;;
        esac
        # what follows an option is its value
        case "$command ${COMP_WORDS[before]}" in
            *" --hook") words="place preempt pull" files=no ;;
            *" --maps"|*" --max-bytes"|*" --max-steps"|*" --helpers"|*" --hooks"|*" --max-maps"|*" --max-map-bytes"|*" --max-counters"|*" --ticks"|*" --ctx"|*" --set"|*" --map"|*" --time"|*" --processor"|*" --counter"|*" --repeat"|*" --duration"|*" --seed"|*" --seeds"|*" --from"|*" --to"|*" --cpus"|*" --tasks"|*" --width"|*" --title"|*" --max-events") words="" files=no ;;
            *" --format") words="1 2" files=no ;;
            *" --image") words="" files=yes ;;
            *" --rule"|*" --discipline") words="cfs eevdf" files=no ;;
            *" --processors") words="1 2 4 8 16 32 64" files=no ;;
            *" --place"|*" --preempt"|*" --pull"|*" --against") words="none" files=yes ;;
            "simulate --as") words="report trace map timehist why svg perfetto csv json" files=no ;;
            "timeline --as") words="report map timehist why svg perfetto csv json" files=no ;;
            *" --theme") words="light dark auto" files=no ;;
        esac
    fi
    mapfile -t COMPREPLY < <(compgen -W "$words" -- "$word")
    if [ $files = yes ] && [[ $word != -* ]]; then
        mapfile -t -O "${#COMPREPLY[@]}" COMPREPLY < <(compgen -f -- "$word")
    fi
}
complete -o filenames -F _bqsim bqsim
