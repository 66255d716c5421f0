# Sourced by the gate and by the demonstration. The prover unpacks thousands of small files for a check, and
# that is quicker in memory: passing files go to a folder there, if the machine has one with room enough from
# which programs can be run. The folder and the file in `log` go when the script ends.
memory=/dev/shm passing='' log=''
trap 'rm -rf ${passing:+"$passing"} ${log:+"$log"}' EXIT
if [ -w "$memory" ] && [ "$(df --output=avail "$memory" | tail -n 1)" -ge 2000000 ]; then
    passing=$(mktemp -d "$memory/vimelosa.XXXXXX")
    chmod 711 "$passing"
    cp /bin/true "$passing" && "$passing/true" && export TMPDIR="$passing"
fi
log=$(mktemp)
