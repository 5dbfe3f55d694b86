#!/bin/sh
# Traces what the memory controller of the running kernel counts while a command runs, for examples/from-ftrace.py.
set -eu

usage='Usage: examples/trace-kernel.sh COMMAND [ARGUMENT..] > kernel.trace

Run it as root, on x86-64 with cgroup v2, best from the root group: kernels 6.1 and 6.12 of Debian were tried.
What the command writes goes to standard error. Offsets are found by bpftool, else by a table of these kernels.
BUFFER is the size of the buffer of a CPU, in KiB (16384). docs/KERNEL.md says what is traced.'
tracing=/sys/kernel/tracing cgroups=/sys/fs/cgroup types=/sys/kernel/btf/vmlinux
mine=$tracing/instances/memcg

die() {
    echo "trace-kernel: $*" >&2
    exit 2
}

# The offsets of the fields that lead from what a function is given to the number of a group.
offsets() {
    if command -v bpftool > /dev/null && [ -r "$types" ]; then
        bpftool btf dump file "$types" format raw | awk '
            /^\[/ { gsub("\047", "", $3); struct = $2 == "STRUCT" ? $3 : ""; sub("size=", "", $4); size[struct] = $4 }
            /^\t/ && struct ~ /^(mem_cgroup|cgroup_subsys_state|cgroup|kernfs_node|kernfs_open_file)$/ {
                gsub("\047", "", $1); sub("__parent", "parent", $1); sub("bits_offset=", "", $3); at[struct "." $1] = $3 / 8
            }
            END {
                print "page=" size["page"], "memory=" at["mem_cgroup.memory"], "cgroup=" at["cgroup_subsys_state.cgroup"],
                    "kn=" at["cgroup.kn"], "id=" at["kernfs_node.id"], "parent=" at["kernfs_node.parent"],
                    "file_kn=" at["kernfs_open_file.kn"]
            }'
    else
        case $(uname -r) in
        6.1.0-*-amd64) echo 'page=64 memory=256 cgroup=0 kn=248 id=104 parent=8 file_kn=0' ;;
        6.12.*deb1*-amd64) echo 'page=64 memory=256 cgroup=0 kn=256 id=96 parent=8 file_kn=0' ;;
        *) die "there is no bpftool, and the table has no kernel $(uname -r)" ;;
        esac
    fi
}

# probe EVENT FUNCTION [WHAT TO FETCH..]: an event at the entry of a function; of ^EVENT at its end.
probe() {
    kind=p name=$1 function=$2
    case $name in
    ^*) kind=r100 name=${name#^} ;;
    esac
    shift 2
    echo "$kind:memcg/$name $function $*" >> $tracing/kprobe_events 2> /dev/null
}

# must: as `probe`, of a function without which the trace says nothing.
must() {
    probe "$@" || die "the kernel takes no probe of $2: it has no such function, inlined it, or has other arguments"
}

# may: as `probe`, of a function without which some pages are only a remainder of their group.
may() {
    probe "$@" || echo "trace-kernel: the kernel takes no probe of $2: its pages are a remainder" >&2
}

set_up() {
    of_group="+$id(+$kn(+$cgroup(\$arg1))):u64" # of a mem_cgroup
    of_counter="+$id(+$kn(-$((memory - cgroup))(\$arg1))):u64" # of its page_counter `memory`
    must base memory_stat_show base=@vmemmap_base:x64
    must charge __mem_cgroup_charge 'page=$arg1'
    must ^charged __mem_cgroup_charge 'ret=$retval:s32'
    may charge mem_cgroup_swapin_charge_folio 'page=$arg1'
    may ^charged mem_cgroup_swapin_charge_folio 'ret=$retval:s32'
    must try try_charge_memcg "id=$of_group pages=\$arg3:u32"
    must ^tried try_charge_memcg 'ret=$retval:s32'
    must count page_counter_try_charge "id=$of_counter pages=\$arg2:u64"
    must ^counted page_counter_try_charge 'ret=$retval:u8'
    must force page_counter_charge "id=$of_counter pages=\$arg2:u64 caller=\$stack0:symbol"
    must uncount page_counter_uncharge "id=$of_counter pages=\$arg2:u64 caller=\$stack0:symbol"
    must refill __refill_stock "id=$of_group pages=\$arg2:u32"
    must uncharge uncharge_folio 'page=$arg1'
    may migrate mem_cgroup_migrate 'page=$arg1 to=$arg2'
    must limit memory_max_write "id=+$id(+$parent(+$file_kn(\$arg1))):u64 value=+0(\$arg2):string"
    for function in __alloc_pages_bulk alloc_pages_bulk_noprof; do
        ! probe bulk $function || probe ^bulked $function 'ret=$retval:u64'
    done
    may mapped vmap_small_pages_range_noflush 'from=$arg1 to=$arg2 pages=+0($arg4):x64[16]'
    must offline mem_cgroup_css_offline "id=$of_group"
}

# Writes each group with its own amounts into the trace.
mark() {
    find "$cgroups" -type d -exec stat -c '%i %n' {} + | while read -r key group; do
        [ -f "$group/memory.current" ] || continue
        read -r current < "$group/memory.current"
        read -r peak < "$group/memory.peak"
        read -r max < "$group/memory.max"
        events=
        while read -r event count; do
            events=$events,$event:$count
        done < "$group/memory.events"
        path=${group#"$cgroups"}
        echo "group id=$key current=$current peak=$peak max=$max events=${events#,} path=$path" > $mine/trace_marker
    done
}

# Takes back what was set up.
clear_up() {
    [ ! -d $mine ] || {
        echo 0 > $mine/tracing_on
        echo 0 > $mine/events/enable
        rmdir $mine
    }
    for name in $(sed -n 's,^.*:memcg/\([a-z]*\) .*,\1,p' $tracing/kprobe_events | sort -u); do
        echo "-:memcg/$name" >> $tracing/kprobe_events
    done
}

case ${1-} in
-h | --help)
    echo "$usage"
    exit
    ;;
'' | -*)
    echo "$usage" >&2
    exit 2
    ;;
esac
[ -w $tracing/kprobe_events ] || die "$tracing/kprobe_events can't be written: run it as root, with tracefs mounted there"
grep -qw memory $cgroups/cgroup.controllers || die "$cgroups has no memory controller of cgroup v2"
if [ -d $mine ] || grep -q ':memcg/' $tracing/kprobe_events; then
    die "$mine or a probe of it is there: another trace is running, or was stopped"
fi
found=$(offsets)
for each in $found; do
    case $each in
    *=) die "the kernel's type information has no offset ${each%=}" ;;
    esac
    eval "$each"
done
trap clear_up EXIT
trap 'exit 2' INT TERM
set_up
mkdir $mine
echo global > $mine/trace_clock
echo "${BUFFER:-16384}" > $mine/buffer_size_kb
for event in kmem/mm_page_alloc kmem/mm_page_free cgroup/cgroup_mkdir cgroup/cgroup_rmdir memcg; do
    echo 1 > $mine/events/$event/enable
done
read -r _ < $cgroups/memory.stat # an event `base`
mark
status=0
"$@" >&2 || status=$?
mark
echo 0 > $mine/tracing_on
echo "# memcg kernel=$(uname -r) $found"
while read -r name hits misses; do
    [ "$misses" = 0 ] || echo "# missed $name $misses of $((hits + misses))"
done < $tracing/kprobe_profile
cat $mine/trace
exit $status
