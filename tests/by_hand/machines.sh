#!/usr/bin/env bash
# A sweep in parts on several machines: the lines of all parts, sorted, are those of the whole sweep.
#   tests/by_hand/machines.sh parallel [PLAN [PROGRAMS]]   by GNU parallel over ssh, on two test hosts: network namespaces with an sshd each
#   tests/by_hand/machines.sh slurm [PLAN [PROGRAMS]]      by an array of jobs under a Slurm of one machine
# It runs as root, and needs Debian's parallel, rsync, openssh-server and iproute2, or slurm-wlm. PLAN is examples/first_plan.toml, PROGRAMS bin/.
set -eu
top=$(cd "$(dirname "${BASH_SOURCE[0]}")/../.." && pwd)
how=${1:?parallel or slurm} plan=${2:-$top/examples/first_plan.toml} programs=$(cd "${3:-$top/bin}" && pwd)
work=$(mktemp -d)
chmod 755 "$work"
cp "$plan" "$work/plan.toml"
cp "$programs/hsr_plan" "$work/hsr_plan"

stop_all() {
  for pid in "$work"/*.pid; do [ -f "$pid" ] && kill "$(cat "$pid")" 2> "$work/gone"; done
  for host in 1 2; do ip netns delete "hsr-test-$host" 2> "$work/gone"; done
  ip link delete hsr-test 2> "$work/gone"
  rm -rf "$work"
}
trap stop_all EXIT

whole() {
  "$work/hsr_plan" sweep < "$work/plan.toml" > "$work/all" || [ $? = 2 ]
  # The last three lines tell of the whole, and no part has them.
  head -n -3 "$work/all" | sort > "$work/whole"
}

# Two hosts on one bridge, each with an sshd of its own that takes one key.
start_hosts() {
  ssh-keygen -q -t ed25519 -N '' -f "$work/key"
  ssh-keygen -q -t ed25519 -N '' -f "$work/host"
  mkdir -p /run/sshd
  ip link add hsr-test type bridge
  ip address add 10.99.7.254/24 dev hsr-test
  ip link set hsr-test up
  for host in 1 2; do
    ip netns add "hsr-test-$host"
    ip link add "hsr-v$host" type veth peer name eth0 netns "hsr-test-$host"
    ip link set "hsr-v$host" master hsr-test up
    ip -n "hsr-test-$host" address add "10.99.7.$host/24" dev eth0
    ip -n "hsr-test-$host" link set eth0 up
    ip netns exec "hsr-test-$host" /usr/sbin/sshd -f /dev/null -h "$work/host" -o "AuthorizedKeysFile=$work/key.pub" -o StrictModes=no \
      -o "PidFile=$work/host$host.pid" -o PermitRootLogin=prohibit-password -o UsePAM=no
  done
}

by_parallel() {
  start_hosts
  printf 'ssh -i %s -o StrictHostKeyChecking=no -o UserKnownHostsFile=%s root@10.99.7.%s\n' "$work/key" "$work/known" 1 "$work/key" "$work/known" 2 > "$work/machines"
  cd "$work"
  seq 8 | parallel --will-cite --sshloginfile machines --basefile plan.toml --basefile hsr_plan --workdir /tmp/hsr-parts --joblog jobs \
    './hsr_plan sweep --part {}/8 < plan.toml' 2> errors | sort > lines || true
  echo "jobs by host: $(tail -n +2 jobs | grep -o '10\.99\.7\.[12]' | sort | uniq -c | tr '\n' ' ')"
}

start_slurm() {
  local host
  host=$(hostname -s)
  mkdir -p "$work/state" "$work/spool" /run/munge /var/log/munge /var/lib/munge
  chown munge: /run/munge /var/log/munge /var/lib/munge
  [ -f /etc/munge/munge.key ] || { head -c 1024 /dev/urandom > /etc/munge/munge.key; chown munge: /etc/munge/munge.key; chmod 400 /etc/munge/munge.key; }
  pgrep -x munged > "$work/gone" || setpriv --reuid=munge --regid=munge --clear-groups /usr/sbin/munged
  cat > "$work/slurm.conf" <<CONF
ClusterName=test
SlurmctldHost=$host(127.0.0.1)
SlurmUser=root
SlurmctldPidFile=$work/ctld.pid
SlurmdPidFile=$work/slurmd.pid
StateSaveLocation=$work/state
SlurmdSpoolDir=$work/spool
SlurmctldLogFile=$work/ctld.log
SlurmdLogFile=$work/slurmd.log
ProctrackType=proctrack/linuxproc
TaskPlugin=task/none
JobAcctGatherType=jobacct_gather/none
SelectType=select/cons_tres
SelectTypeParameters=CR_CPU
MpiDefault=none
ReturnToService=2
NodeName=$host NodeAddr=127.0.0.1 CPUs=$(nproc) State=UNKNOWN
PartitionName=all Nodes=ALL Default=YES MaxTime=INFINITE State=UP
CONF
  export SLURM_CONF=$work/slurm.conf
  slurmctld
  slurmd
}

by_slurm() {
  start_slurm
  cd "$work"
  sbatch --quiet --array=1-8 --wait --output=part-%a.txt --wrap='./hsr_plan sweep --part $SLURM_ARRAY_TASK_ID/8 < plan.toml' || true
  sort part-*.txt > lines
  echo "jobs: $(ls part-*.txt | wc -l)"
}

whole
"by_$how"
if diff "$work/whole" "$work/lines" > "$work/diff"; then
  echo "$how: the $(wc -l < "$work/whole") lines of all parts are those of the whole"
else
  head -20 "$work/diff"
  echo "$how: the parts tell something else"
  exit 1
fi
