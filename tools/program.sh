# What the scripts `exam` and `key` do: each answers texts with its proved program, which it proves and builds where that is not done for these sources and this kit.
# The script sets `name` (its program), `home` (the folder where it stands), `purpose` (what it answers) and `explainer` (what explains a refusal, or nothing).
set -uo pipefail
unset CDPATH

usage() {
    cat <<END
usage: $name ${explainer:+[--explain] }[FILE ..]
       $name --help | --version

$purpose Several answers stand each under the name of its file. The status is 0 for answers and refusals, 1 where something failed, 2 for a wrong use.

${explainer:+  --explain  where a text is refused with 10, says on standard error at which line and column it is not as laid out. The explanation comes from
             $explainer, which is not proved and decides nothing.
}  --version  the kit that proved the program, and the commit that it was built of
END
    [ "$packaged" = yes ] || cat <<END

On first use, and when a source or the kit has changed, the program is proved and built, which takes some minutes and needs the Rattle kit.
END
}

fail() {
    echo "$name: $1" >&2
    exit 1
}

wrong_use() {
    echo "$name: $1" >&2
    usage >&2
    exit 2
}

target=$home/target
program=$target/bin/$name
built=$target/$name.built
packaged=no
if [ -f "$home/PACKAGE" ]; then
    packaged=yes
    program=$home/bin/$name
    built=$home/bin/$name.built
fi

# where the kit leaves the program
made=crates/$name/out/$name

# what the program is made of: every source, definition and proof, and nothing that the kit left beside them
sources() {
    (cd "$home" && find crates crates.txt -path 'crates/*/out' -prune -o -type f \( -name '*.rt' -o -name '*.antt' -o -name crates.txt \) -print0 | LC_ALL=C sort -z | xargs -0 sha256sum | sha256sum | cut -d ' ' -f 1)
}

kit() {
    command -v rt >/dev/null && rt version 2>/dev/null | head -n 1
}

# the commit of the checkout, and whether its sources differ from it
commit() {
    local of changes
    [ -e "$home/.git" ] && of=$(git -C "$home" rev-parse HEAD 2>/dev/null) &&
        changes=$(git --no-optional-locks -C "$home" status --porcelain -- crates crates.txt 2>/dev/null) || { echo 'not known'; return; }
    echo "$of${changes:+ and changes since}"
}

# whether the program was built of these sources, and by this kit where there is one
current() {
    [ -x "$program" ] && [ -r "$built" ] || return 1
    [ "$packaged" = no ] || return 0
    { read -r of && read -r by; } <"$built" || return 1
    [ "$of" = "$(sources)" ] || return 1
    ! command -v rt >/dev/null || [ "$by" = "$(kit)" ]
}

# the kit and the commit of a program that is current; else that none is, and the commit of the checkout
version() {
    local of by
    if current; then
        by=$(sed -n 2p "$built") of=$(sed -n 3p "$built")
        echo "kit ${by:-not known}, commit ${of:-not known}"
        return
    fi
    [ "$packaged" = no ] || not_whole
    by=$(kit)
    echo "no program is built of these sources${by:+ by kit $by}; the checkout is at commit $(commit)"
}

not_whole() {
    fail "this package is not whole: $program or $built is missing"
}

# has the kit prove and build it; the kit also runs it, on no input
prove() {
    echo "$name: proving and building the program, which may take some minutes" >&2
    local log=$target/$name.log worker status
    setsid bash -c 'cd "$1/crates/$2" && exec rt run' _ "$home" "$name" >"$log" 2>&1 </dev/null 9>&- &
    worker=$!
    trap 'kill -TERM -- "-$worker" 2>/dev/null; wait "$worker" 2>/dev/null; echo "$name: the build was interrupted" >&2; exit 1' INT TERM HUP
    wait "$worker"
    status=$?
    trap - INT TERM HUP
    if [ "$status" -ne 0 ]; then
        tail -n 20 "$log" >&2
        if grep -qE 'logic=not-proved|no proof:|it is not proved that' "$log"; then
            fail "the program is not proved (all that the check said is in $log)"
        elif [ "$status" -gt 128 ]; then
            fail 'the build was interrupted'
        else
            fail "the program could not be built (all that was said is in $log)"
        fi
    fi
    [ -x "$home/$made" ] || fail "the check passed, but built no program; remove the folder crates/$name/out and try again"
}

# proves and builds it, once for all who ask at the same time, and never beside the other program's build
build() {
    [ "$packaged" = no ] || not_whole
    command -v rt >/dev/null || fail 'the Rattle kit is needed to build the program (no rt on the path)'
    mkdir -p "$target" 2>/dev/null && [ -w "$target" ] || fail "there is no right to write $target"
    exec 9>"$target/build.lock" || fail "there is no right to write $target"
    if ! flock -n 9; then
        echo "$name: another use is building; waiting for it" >&2
        flock 9 || fail 'the lock on the build could not be had'
    fi
    if current; then
        exec 9>&-
        return
    fi
    rm -f "$built" || fail "there is no right to write $target"
    local of by from
    of=$(sources) by=$(kit) from=$(commit 9>&-)
    # The gate sets PROVED_HERE where `rt ci` has just proved and built the program of these sources here.
    [ "${PROVED_HERE-}" = yes ] && [ -x "$home/$made" ] || prove
    mkdir -p "$target/bin" && cp "$home/$made" "$program.new" && mv -f "$program.new" "$program" || fail "there is no right to write $target"
    [ "$of" = "$(sources)" ] || fail 'a source was changed while the program was built; try again'
    printf '%s\n%s\n%s\n' "$of" "$by" "$from" >"$built" || fail "there is no right to write $target"
    exec 9>&-
}

# one text from standard input: what the program writes, and what it says where it fails
answer() {
    local said status
    if [ "$explain" = yes ]; then
        python3 "$home/$explainer" --run "$program"
        return
    fi
    { said=$("$program" 2>&1 >&3); } 3>&1
    status=$?
    if [ "$status" -eq 141 ]; then
        echo "$name: standard output was closed before the answer was written" >&2
        return 1
    elif [ "$status" -ne 0 ]; then
        echo "$name: the run failed with status $status${said:+: $said}" >&2
        return 1
    elif [ -n "$said" ]; then
        printf '%s\n' "$said" >&2
        return 1
    fi
}

[ -e "/proc/$$/fd/1" ] || fail 'standard output is closed'
trap 'fail "standard output was closed before the answer was written"' PIPE
explain=no
files=()
given=$#
while [ $# -gt 0 ]; do
    case $1 in
        --help | --version)
            [ "$given" -eq 1 ] || wrong_use "$1 stands alone"
            if [ "$1" = --help ]; then said=$(usage); else said=$(version); fi || exit 1
            printf '%s\n' "$said" 2>/dev/null || fail 'standard output cannot be written'
            exit 0
            ;;
        --) shift; files+=("$@"); break ;;
        -?*)
            [ "$1" = --explain ] && [ -n "$explainer" ] || wrong_use "there is no option $1"
            explain=yes
            ;;
        *) files+=("$1") ;;
    esac
    shift
done
if [ ${#files[@]} -eq 0 ]; then
    [ -e "/proc/$$/fd/0" ] || fail 'standard input is closed'
    [ ! -d "/proc/$$/fd/0" ] || fail 'standard input is a folder'
fi
[ "$explain" = no ] || command -v python3 >/dev/null || fail '--explain needs python3'
for file in "${files[@]}"; do
    [ ! -d "$file" ] && [ -r "$file" ] || fail "the file '$file' cannot be read"
done
current || build

if [ ${#files[@]} -eq 0 ]; then
    answer
    exit
fi
result=0
for i in "${!files[@]}"; do
    if [ ${#files[@]} -gt 1 ]; then
        { [ "$i" -eq 0 ] || echo; } 2>/dev/null && echo "${files[$i]}" 2>/dev/null || fail 'standard output cannot be written'
    fi
    answer <"${files[$i]}" || result=1
done
exit $result
