#compdef lftrace
# Completion of lftrace for zsh. tools/install puts it where zsh finds it, as _lftrace.
local before=${words[CURRENT - 1]} word=${words[CURRENT]} it
local -a choice=() told=()
# What a word does, for all commands or behind one of them.
local -A about=(
    judge 'judge a trace'
    cover 'count what a trace exercised'
    explain 'tell the facts behind a verdict'
    pair 'compare two traces'
    follow 'judge a trace while it is written'
    record 'record an execution by cards'
    show 'list ports and reactions'
    help 'print help'
    -h 'print help'
    --help 'print help'
    -V 'print the version'
    --version 'print the version'
    --workers 'how many workers'
    --max-runs 'how many runs at most'
    --lower 'take a whole program'
    --until 'the last tag'
    --all 'all lines of each part'
    'show --all' 'all things, one a line'
    --list 'one fact a line'
    --whole 'no row is missing at the end'
    --every 'tell how far it is'
    --drain 'read on behind what is told'
    --explain 'tell the facts'
)
if (( CURRENT == 2 )); then
    choice=(judge cover explain pair follow record show help -h --help -V --version)
elif [[ $before == --workers ]]; then
    choice=(1 2 4 8 16 32 64)
elif [[ $before == --max-runs ]]; then
    choice=(1000 1000000)
elif [[ $before == --until ]]; then
    choice=(0,0)
elif [[ $before == --every ]]; then
    choice=(1000000)
elif [[ ${words[2]} == help || $word == -* ]]; then
    case ${words[2]} in
        judge) choice=(--workers --lower --until -h --help) ;;
        pair) choice=(--workers --lower -h --help) ;;
        cover) choice=(--workers --lower --list -h --help) ;;
        explain) choice=(--workers --lower --until --all -h --help) ;;
        follow) choice=(--lower --until --whole --every --drain --explain --all -h --help) ;;
        record) choice=(--workers --max-runs --lower -h --help) ;;
        show) choice=(--lower --all -h --help) ;;
        help) choice=(judge cover explain pair follow record show) ;;
    esac
fi
for it in $choice; do
    told+=("$it${about[$it]:+:${about[${words[2]} $it]:-${about[$it]}}}")
done
if (( $#told )); then
    _describe word told
else
    _files
fi
