# What a stranger does with a release, in a root that has no more than a shell and a few tools (.ci/release.py).
# Each `try` is one check: its words are a command, which has to end well.
try() {
    name=$1
    shift
    # (not in the condition of an `if`, where `set -e` does nothing)
    (set -e; "$@") > /tmp/said 2>&1
    status=$?
    if [ "$status" = 0 ]; then echo "passed $name"; else echo "FAILED $name:"; tail -n 12 /tmp/said; fi
}

# Whether a command's output has this very line.
says() {
    line=$1
    shift
    "$@" > /tmp/output 2>&1 || true
    grep -qxF "$line" /tmp/output
}

bundle() { ./epaxos replay --emit bundle < "$1" > "$2"; }

sums() { sha256sum -c --quiet SHA256SUMS; }
built() { grep -q ^commit: BUILT && grep -q ^again: BUILT; }

a_script() { ./epaxos replay < examples/one_put.script | cmp - examples/one_put.report; }
a_trace() { ./epaxos trace < examples/slow_path.script | cmp - examples/slow_path.trace; }
threads() { says "verdict accepted" ./epaxos run --host ring < examples/lock.run; }
an_audit() {
    bundle examples/one_put.script /tmp/one_put.bundle
    says "verdict accepted" ./epaxos audit < /tmp/one_put.bundle
}
a_diagram() { ./epaxos draw --mermaid < /tmp/one_put.bundle | cmp - examples/one_put.mmd; }
a_page() { ./epaxos draw < /tmp/one_put.bundle | grep -q "</html>"; }
a_reason() { ./epaxos explain < examples/one_put.script | grep -q "script read"; }

# The tutorial's outputs are what the programs say.
told() { grep -qF "$1" docs/TUTORIAL.md; }
a_changed_receipt() {
    bundle examples/conflict.script /tmp/conflict.bundle
    LC_ALL=C sed 's/2\(\x00\x00\x00\x02\x00\x00\x00\x01\x01\)/3\1/' /tmp/conflict.bundle > /tmp/lied.bundle
    says "A4 unknown receipt 1" ./epaxos audit < /tmp/lied.bundle
    told "A4 unknown receipt 1"
}
a_changed_journal() {
    sed s/x2/x3/ /tmp/conflict.bundle > /tmp/changed.bundle
    says "bundle refused E11 at replica 0 entry 4" ./epaxos audit < /tmp/changed.bundle
    told "bundle refused E11 at replica 0 entry 4"
}
an_open_instance() {
    head -n 5 examples/recovery.script | ./epaxos trace > /tmp/open
    [ "$(wc -l < /tmp/open)" = 6 ]
    told "$(head -n 3 /tmp/open | tail -n 1)"
    told "$(tail -n 1 /tmp/open)"
}
a_chain() {
    bundle examples/first_life.script /tmp/first.bundle
    bundle examples/second_life.script /tmp/second.bundle
    ./epaxos audit --chain /tmp/first.bundle /tmp/second.bundle > /tmp/chain
    [ "$(wc -l < /tmp/chain)" = 3 ]
    told "$(head -n 2 /tmp/chain | tail -n 1)"
    told "$(tail -n 1 /tmp/chain)"
}
refused() { says "$3" ./epaxos audit --chain "$1" "$2" && told "$3"; }
traces() {
    grep '^line [0-9]*  stamp' docs/TUTORIAL.md > /tmp/lines
    [ "$(wc -l < /tmp/lines)" -ge 5 ]
    for it in conflict recovery take_lock first_life; do ./epaxos trace < examples/$it.script; done > /tmp/traces
    while read -r line; do grep -qxF "$line" /tmp/traces || return 1; done < /tmp/lines
}
refused_chains() {
    sed 's/opening x 1/opening x 7/' examples/second_life.script > /tmp/other.script
    bundle /tmp/other.script /tmp/other.bundle
    refused /tmp/first.bundle /tmp/other.bundle "A7 opening differs at key x"
    sed 's/since 7/since 3/' examples/second_life.script > /tmp/other.script
    bundle /tmp/other.script /tmp/other.bundle
    refused /tmp/first.bundle /tmp/other.bundle "A8 stamps go back"
    refused /tmp/second.bundle /tmp/first.bundle "A9 not closed"
    refused /tmp/first.bundle /tmp/first.bundle "A6 not consecutive"
}

help_is_there() { ./epaxos help node | grep -q "^Usage: epaxos node" && ! ./epaxos --help | grep -q -e --build; }
version_is_there() { ./epaxos --version | grep -q "^epaxos "; }
refusal() {
    status=0
    "$@" > /tmp/output 2>&1 || status=$?
    [ "$status" = 2 ]
}
no_command() {
    refusal ./epaxos reply
    grep -q "unrecognized subcommand" /tmp/output
    grep -q "subcommands: replay, trace, .*, help]" /tmp/output
}
a_file_as_a_word() {
    ./epaxos replay examples/one_put.script > /tmp/output
    cmp /tmp/output examples/one_put.report
    refusal ./epaxos examples/one_put.script
    grep -q "epaxos reads a file so: epaxos replay examples" /tmp/output
}
# What a terminal shows, on which the fault output of a command comes.
on_terminal() { python3 -c 'import pty, sys; sys.exit(pty.spawn(["sh", "-c", sys.argv[1]]) >> 8)' "$1" > /tmp/shown; }
shows() { tr -d '\r' < /tmp/shown | grep -qF "$1"; }
hints() {
    echo "replicas 4" > /tmp/four.script
    status=0
    on_terminal "./epaxos replay < /tmp/four.script > /tmp/output" || status=$?
    [ "$status" = 2 ] && shows "see: epaxos explain " && shows "line 1, word 2: 4 is out of range"
}
progress() {
    unset EPAXOS_QUIET
    long="(cat examples/one_put.script; sleep 3) | ./epaxos"
    on_terminal "$long replay > /tmp/output"
    shows "epaxos replay: 2 s so far"
    cmp /tmp/output examples/one_put.report
    on_terminal "$long --quiet replay > /tmp/output"
    ! shows "so far"
}
completions() {
    bash -c '. share/bash-completion/completions/epaxos
        words() { COMP_WORDS=("$@") COMP_CWORD=$(($# - 1)); _epaxos; echo "${COMPREPLY[*]}"; }
        words epaxos repl; words epaxos replay --emit j; words epaxos audit --ch
        words epaxos --q; words epaxos --quiet repl; words epaxos --quiet audit --ch' > /tmp/output
    printf 'replay\njson\n--chain\n--quiet\nreplay\n--chain\n' | cmp - /tmp/output
}
manual() {
    gzip -dc share/man/man1/epaxos.1.gz | grep -q "^Usage: epaxos node"
    gzip -dc share/man/man1/epaxos-store.1.gz | grep -q peers
}

a_node() {
    printf '\0\0\0\27\1\0\0\0\1\0\0\0\1\0\0\0\0\0\0\0\0\3\1\0\1x1\0\0\0\1\12' |
        ./epaxos node --replicas 3 --replica 0 --log /tmp/zero.log --new > /tmp/answers
    [ -s /tmp/answers ]
}
a_program_in_c() { mkdir /tmp/c && /tmp/example /tmp/c && /tmp/example /tmp/c; }
its_audit() {
    for it in 0 1 2; do
        mkdir -p "/tmp/a/$it/1"
        cp "/tmp/c/$it.log" "/tmp/a/$it/1/log"
        cp /tmp/c/1.opening "/tmp/a/$it/1/opening"
    done
    ./epaxos collect --generation 1 /tmp/a/0 /tmp/a/1 /tmp/a/2 > /tmp/c.bundle
    says "verdict accepted" ./epaxos audit < /tmp/c.bundle
}
three_stores() { CLUSTER=/tmp/cluster bin/epaxos-cluster up; }
redis_cli() {
    [ "$(redis-cli -p 7000 set x 1)" = OK ]
    [ "$(redis-cli -p 7001 get x)" = 1 ]
    [ "$(redis-cli -p 7002 epaxos lock l me 60000)" = 1 ]
}
end_of_stores() { CLUSTER=/tmp/cluster bin/epaxos-cluster down; }
another_prefix() {
    mkdir -p /opt/own
    cp -r bin lib libexec include share /opt/own
    cd /
    PATH=/opt/own/bin:$PATH epaxos replay < "$top/examples/one_put.script" | cmp - "$top/examples/one_put.report"
}

packaged_script() { epaxos replay < examples/one_put.script | cmp - examples/one_put.report && ./epaxos --version; }
packaged_links() {
    [ -f bindings/rust/epaxos/lib/libepaxos.a ] && [ -f bindings/python/libepaxos.so ] && [ -f hosts/store/cluster ]
}
packaged_python() {
    cd /
    PYTHONPATH=/usr/lib/python3/dist-packages python3 -c "import epaxos; epaxos.Replica.new(3, 0).ready().synced()"
}
packaged_stores() {
    CLUSTER=/tmp/packaged epaxos-cluster up
    CLUSTER=/tmp/packaged epaxos-cluster remove
}
packaged_unit() {
    unit=/usr/lib/systemd/system/epaxos-store.service
    grep -q "^ExecStart=/usr/bin/epaxos-store" $unit && ! grep -q /usr/local $unit || return 1
    # (what it reads is there, and names the folders that the package has)
    [ -d /etc/epaxos-store ] && grep -q "^EnvironmentFile=/etc/default/epaxos-store" $unit || return 1
    grep -q '^#OPTIONS=".* --dir /var/lib/epaxos-store --peer-key /etc/epaxos-store/key"' /etc/default/epaxos-store
}

cd /epaxos-*-x86_64-linux || exit
top=$PWD
export EPAXOS_QUIET=1
try "the sums" sums
try "BUILT" built
try "a script" a_script
try "a trace" a_trace
try "threads" threads
try "an audit" an_audit
try "a diagram" a_diagram
try "a page" a_page
try "a reason" a_reason
try "the tutorial: a receipt that was changed" a_changed_receipt
try "the tutorial: a journal that was changed" a_changed_journal
try "the tutorial: an instance that stays open" an_open_instance
try "the tutorial: a chain" a_chain
try "the tutorial: lines of traces" traces
try "the tutorial: chains that are refused" refused_chains
try "help" help_is_there
try "the version" version_is_there
try "no command" no_command
try "a file as a word" a_file_as_a_word
try "the manual" manual
[ ! -x /bin/bash ] || try "completions of bash" completions
try "a node" a_node
try "a program in C" a_program_in_c
try "its audit" its_audit
if [ -x /usr/bin/python3 ]; then
    [ ! -x /bin/bash ] || try "hints on a terminal" hints
    [ ! -x /bin/bash ] || try "how far long work is" progress
    try "a program in Python" python3 bindings/python/three.py /tmp/p
    try "three stores" three_stores
    [ ! -x /usr/bin/redis-cli ] || try "redis-cli" redis_cli
    try "the end of the stores" end_of_stores
fi
try "another prefix" another_prefix
[ -x /usr/bin/epaxos ] || exit 0
cd /usr/share/epaxos || exit
try "the package: a script" packaged_script
try "the package: its links" packaged_links
if [ -x /usr/bin/python3 ]; then
    try "the package: Python" packaged_python
    try "the package: three stores" packaged_stores
fi
try "the package: the unit" packaged_unit
