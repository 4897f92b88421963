# Read by the scripts beside it that ask about tables drawn at random: takes the words `[--keys LIST] [ROUNDS [SEED]]`, of which `keys` and `rounds`
# have the defaults, after what in_memory.sh does.
. "$(dirname "$0")/in_memory.sh"
if [ "${1:-}" = --keys ]; then
    keys=$2
    shift 2
fi
rounds=${1:-$rounds}
seed=${2:-1}
