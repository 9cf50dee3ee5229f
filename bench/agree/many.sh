#!/bin/sh
# The farm of docs/many.md over 300 small dumps, by xargs, by GNU parallel and as a Slurm array:
#   sh bench/agree/many.sh PATH_OF_MONTRE
# Of the dumps one is broken, one is empty, one hasn't the signals, and one is a pipe that nobody
# writes, whose run is cancelled when all others have ended. Each way has to name these four and has
# to give the table that the made dumps have by themselves, and then the checks are changed, and no
# old answer may count. A way whose programs aren't there is left out, which is said. For Slurm it
# starts a cluster of this machine alone, on its loopback, which needs root.
set -eu
MANY=300
[ $# -eq 1 ] || { echo 'usage: sh bench/agree/many.sh PATH_OF_MONTRE' >&2; exit 2; }
program=$(realpath "$1")
top=$(cd "$(dirname "$0")/../.." && pwd)
room=$(mktemp -d)
started=''
finish() {
    if [ -n "$started" ]; then
        scancel --quiet --user="$(id -un)" || :
        kill $started 2> /dev/null || :
        wait || :
    fi
    rm -rf "$room"
}
trap finish EXIT
trap 'exit 1' INT TERM
mkdir "$room/bin" "$room/dumps"
ln -s "$program" "$room/bin/montre"
PATH=$room/bin:$PATH
cp "$top/examples/check_dump.sh" "$top/examples/counts.sh" "$room"
cd "$room"

# ---- the dumps, and what is in them

printf '%s\n' 'asked = rise(tb.req)' 'some any = tb.req' \
    'each served = rise(tb.req) |-> (!tb.ack ; rise(tb.ack)) % [0,9]' > farm.checks
awk -v many="$MANY" '
    function change(time, what) { printf "#%d\n%s\n", time, what > file }
    BEGIN {
        srand(7)
        for (place = 1; place <= many; place++) {
            file = sprintf("dumps/%03d.vcd", place)
            printf "$timescale 1ns $end\n$scope module tb $end\n$var wire 1 r %s $end\n", place == 3 ? "other" : "req" > file
            printf "$var wire 1 a ack $end\n$upscope $end\n$enddefinitions $end\n#0\n0r\n0a\n" > file
            time = 5
            asked = late = 0
            for (turn = int(rand() * 6); turn > 0; turn--) {
                wait = 1 + int(rand() * 19)
                change(time, "1r"); change(time + wait, "1a\n0r"); change(time + wait + 2, "0a")
                asked++
                late += wait >= 10
                time += wait + 5
            }
            if (place == 1) print "#" (time + 5) "\n#1" > file
            print "#" (time + 20) > file
            close(file)
            if (place <= 4) continue
            told++
            all_asked += asked; in_asked += asked > 0
            if (!asked && !none++) first_none = file
            if (late && !in_late++) first_late = file
        }
        for (place = 1; place <= 4; place++) printf "no answer: dumps/%03d.vcd\n", place
        printf "asked: %d zones in %d of %d dumps\n", all_asked, in_asked, told
        printf "fail any: %d of %d dumps, first %s\n", none, told, first_none
        printf "fail served: %d of %d dumps, first %s\n", in_late, told, first_late
    }' > wanted
: > dumps/002.vcd
rm dumps/004.vcd
mkfifo dumps/004.vcd
ls dumps/*.vcd > farm.list

# ---- the ways

# all_but_one FOLDER: waits until all runs but that of the pipe have ended.
all_but_one() {
    tries=0
    while [ "$(find "$1" -name '*.told' -o -name '*.failed' 2> /dev/null | wc -l)" -lt $((MANY - 1)) ]; do
        tries=$((tries + 1))
        [ "$tries" -lt 3000 ] || { echo "many.sh: $1: the runs don't end" >&2; exit 1; }
        sleep 0.1
    done
}

# cancelled FOLDER COMMAND..: runs it in a group of its own, and ends the group when the pipe is left.
cancelled() {
    folder=$1
    shift
    setsid "$@" < farm.list > "$folder.said" 2>&1 &
    group=$!
    all_but_one "$folder"
    kill -- "-$group"
    wait "$group" || :
}

by_xargs() {
    cancelled xargs xargs -P 4 -n 1 sh check_dump.sh farm.checks xargs
}

by_parallel() {
    cancelled parallel parallel -j 4 sh check_dump.sh farm.checks parallel '{}'
}

by_slurm() {
    mkdir -p slurm.state slurm.spool
    host=$(hostname -s)
    dd if=/dev/urandom of=munge.key bs=128 count=1 2> /dev/null
    chmod 400 munge.key
    chmod 755 "$room"
    cat > slurm.conf << END
ClusterName=many
SlurmctldHost=$host(127.0.0.1)
SlurmUser=$(id -un)
SlurmdUser=$(id -un)
AuthType=auth/munge
AuthInfo=socket=$room/munge.socket
CredType=cred/munge
CommunicationParameters=NoInAddrAny,NoCtldInAddrAny
SlurmctldPort=26817
SlurmdPort=26818
MpiDefault=none
ProctrackType=proctrack/pgid
TaskPlugin=task/none
JobAcctGatherType=jobacct_gather/none
SelectType=select/cons_res
SelectTypeParameters=CR_Core
SlurmdParameters=config_overrides
SchedulerParameters=batch_sched_delay=0,sched_interval=1,bf_interval=1
ReturnToService=2
MaxArraySize=1001
StateSaveLocation=$room/slurm.state
SlurmdSpoolDir=$room/slurm.spool
SlurmctldPidFile=$room/slurmctld.pid
SlurmdPidFile=$room/slurmd.pid
NodeName=$host NodeAddr=127.0.0.1 CPUs=32 State=UNKNOWN
PartitionName=all Nodes=$host Default=YES State=UP
END
    export SLURM_CONF="$room/slurm.conf"
    munged --foreground --force --key-file="$room/munge.key" --socket="$room/munge.socket" \
        --pid-file="$room/munged.pid" --log-file="$room/munged.log" --seed-file="$room/munge.seed" \
        > munged.said 2>&1 &
    started="$started $!"
    sleep 1
    slurmctld -D -i > slurmctld.said 2>&1 &
    started="$started $!"
    slurmd -D > slurmd.said 2>&1 &
    started="$started $!"
    cat > array.sh << 'END'
#!/bin/sh
dump=$(sed -n "${SLURM_ARRAY_TASK_ID}p" farm.list)
exec sh check_dump.sh farm.checks slurm "$dump"
END
    tries=0
    until job=$(sbatch --parsable --array="1-$MANY" --output=/dev/null array.sh 2> sbatch.said); do
        tries=$((tries + 1))
        [ "$tries" -lt 60 ] || { cat sbatch.said slurmctld.said slurmd.said >&2; exit 1; }
        sleep 0.5
    done
    all_but_one slurm
    scancel "${job}_4"
    while squeue --noheader --jobs="$job" 2> /dev/null | grep -q .; do sleep 0.2; done
}

# ---- each way, and its table

wrong=0
ways=0
for way in xargs parallel slurm; do
    case $way in
        xargs) needs=xargs ;;
        parallel) needs=parallel ;;
        slurm) needs='munged slurmctld slurmd sbatch' ;;
    esac
    for need in $needs; do
        command -v "$need" > /dev/null || { echo "$way: left out, there is no $need"; continue 2; }
    done
    mkdir "$way"
    "by_$way"
    ways=$((ways + 1))
    sh counts.sh farm.checks "$way" farm.list > "$way.table" || :
    sed 's/^\(no answer: [^:]*\):.*/\1/' "$way.table" | cmp -s - wanted || {
        wrong=$((wrong + 1))
        echo "$way: another table"
        diff "$way.table" wanted || :
    }
    cp farm.checks kept
    sed 's/0,9/0,8/' kept > farm.checks
    [ "$(sh counts.sh farm.checks "$way" farm.list | grep -c '^no answer: ')" -eq "$MANY" ] || {
        wrong=$((wrong + 1))
        echo "$way: an answer to other checks counts"
    }
    mv kept farm.checks
    grep '^no answer: ' "$way.table" | sed "s/^/$way: /"
done
tail -n 3 wanted
echo "$ways ways over $MANY dumps, $wrong wrong"
[ "$wrong" -eq 0 ]
