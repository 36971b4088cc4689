# shellcheck shell=bash
# Where the program, the library and the page are that were made of these sources. A script that uses one of them sources this
# file, with the repository's top in `top`, and calls find_program, find_library or find_page.
#
# What was built here of these sources comes first; then what lies in prebuilt/, where prebuilt/SUMS says that it was made of
# them; else it is proved and built by the Rattle kit. No time of a file decides that, only the sums of what stands in them.
: "${top:?}"

# What is shipped. tools/portable/make makes the library for other processors, all of it at once, and the program for aarch64. Of what
# only a package has prebuilt/SUMS holds the sum.
portable_products=(j1939_32.c libj1939-{cortex-m4,rv32imac,aarch64}.a)
packaged_products=(libj1939-{cortex-m0plus,cortex-m3,cortex-m33,armhf}.a)
products=(j1939 libj1939.a j1939.html "${portable_products[@]}" j1939-aarch64 "${packaged_products[@]}")
# Which of them are for the machine that this runs on.
program_here=j1939 library_here=libj1939.a
[ "$HOSTTYPE" != aarch64 ] || program_here=j1939-aarch64 library_here=libj1939-aarch64.a

# What the library and the page are made of beside their crates.
library_files='c/archive c/j1939.c c/j1939.h c/memory.h c/pool.c c/pool.h'
portable_files="$library_files c/heap.c c/narrow.c"
portable_files+=' tools/portable/aligned.py tools/portable/llvm.py tools/portable/make tools/portable/narrow.py tools/portable/system.c tools/portable/write_c.py'
page_files='NOTICES web/build web/page.css web/page.html web/put_together web/sample.py crates/j1939/tables/trucks.table tables/functions tables/addresses tables/makers'
page_files+=' web/page/bands.js web/page/base.js web/page/controls.js web/page/curves.js web/page/faults.js web/page/glance.js web/page/hands.js web/page/log.js web/page/parameters.js web/page/picture.js web/page/plots.js web/page/save.js web/page/table.js web/page/times.js web/page/view.js'
page_files+=' web/worker/convert.js web/worker/files.js web/worker/hear.js web/worker/log.js web/worker/module.js web/worker/rows.js web/worker/series.js web/worker/values.js web/worker/view.js'

# Sets what a product is made of, and where it lies where it is built here.
describe() {
  case $1 in
    j1939) crate=j1939 files='' made=$top/crates/j1939/out/j1939 ;;
    libj1939.a) crate=j39_c files=$library_files made=$top/c/out/libj1939.a ;;
    j1939.html) crate=j39_web files=$page_files made=$top/web/out/j1939.html ;;
    bus_demo) crate=bus_demo files='' made=$top/crates/bus_demo/out/bus_demo ;;
    j1939-aarch64) crate=j1939 files='c/heap.c c/memory.h tools/portable/make tools/portable/system.c' made=$top/c/out/$1 ;;
    *) crate=j39_c files=$portable_files made=$top/c/out/$1 ;;
  esac
}

is_packaged() {
  [[ " ${packaged_products[*]} " = *" $1 "* ]]
}

# The version, which stands in the program's source.
version_here() {
  sed -n 's/^const VERSION: &str = "\(.*\)";$/\1/p' "$top/crates/j39_cli/src/command.rt"
}

# Prints the crate and all crates of ours below it, as crates.txt has them, each behind those that it stands on.
crates_of() {
  awk -F: -v crate="$1" '
    function walk(name,  i, n, below) {
      if (!(name in uses) || name in seen) return
      seen[name]
      n = split(uses[name], below, " ")
      for (i = 1; i <= n; i++) walk(below[i])
      print name
    }
    !/^#/ { name = $1; sub(/ .*/, "", name); uses[name] = $2 }
    END { walk(crate) }' "$top/crates.txt"
}

# The crate that stands in the page for this one: it holds where it stands what this one holds in memory that is asked for.
in_place() {
  if [ "$1" = j39_memory ]; then
    echo j39_memory_in_place
  else
    echo "$1"
  fi
}

# Prints of each source of the products that is there, and of the files that are named first, what find is told to.
find_sources() {
  # shellcheck disable=SC2086 # The files are words.
  (cd "$top" && find crates/*/src crates/*/specs crates/*/proofs $portable_files $page_files $1 -type f "${@:2}" 2>/dev/null) || true
}

# Prints a line for each of these sources, its sum and its name, and for each crate its line of crates.txt.
list_sources() {
  find_sources '' -print0 | LC_ALL=C sort -z | (cd "$top" && xargs -0 sha256sum)
  sed 's/ /+/g; s/^\([a-z0-9_]*\).*/&  crates.txt:\1/' "$top/crates.txt"
}

# Keeps of such a list the lines of a product.
sources_of() {
  local crate files made name names='' folders=''
  describe "$1"
  for name in $(crates_of "$crate"); do
    names+=" $name"
    if [ "$1" = j1939.html ]; then name=$(in_place "$name"); fi
    folders+=" $name"
  done
  awk -v names="$names " -v folders="$folders " -v files=" $files " '
    { split($2, part, "[/:]") }
    part[1] == "crates.txt" && index(names, " " part[2] " ") { print; next }
    part[1] == "crates" && index(folders, " " part[2] " ") || index(files, " " $2 " ")'
}

sum_of() {
  local sum
  sum=$(sha256sum "$@") && echo "${sum%% *}"
}

# Sets `sources`, the sum of a product's sources, and `shipped`, that of what lies in prebuilt/. They are kept in out/, where
# that can be written, until one of all these files is another, by its place, its size or its times.
sum_sources() {
  local key list product was kept=()
  key=$(find_sources 'crates.txt prebuilt' -printf '%p %i %s %T@ %C@\n' | sum_of)
  mapfile -t kept 2>/dev/null <"$top/out/sources" || true
  if [ "${kept[0]-}" != "$key" ]; then
    list=$(list_sources)
    kept=("$key")
    for product in "${products[@]}" bus_demo; do
      # By a pipe, which wants no room for temporary files.
      sources=$(printf '%s\n' "$list" | sources_of "$product" | sum_of)
      shipped=$(sum_of "$top/prebuilt/$product" 2>/dev/null) || shipped=none
      kept+=("$product $sources $shipped")
    done
    keep_sums
  fi
  for was in "${kept[@]:1}"; do
    if [ "${was%% *}" = "$1" ]; then
      was=${was#* }
      sources=${was% *} shipped=${was#* }
    fi
  done
}

# A file that was changed a moment ago may change once more without another time.
keep_sums() {
  [ -z "$(find_sources 'crates.txt prebuilt' -newerct '2 seconds ago' -print -quit)" ] || return 0
  {
    mkdir -p "$top/out" && printf '%s\n' "${kept[@]}" >"$top/out/sources.$$" && mv "$top/out/sources.$$" "$top/out/sources"
  } 2>/dev/null || rm -f "$top/out/sources.$$" 2>/dev/null || true
}

# Whether what was built here was made of these sources: a build notes its sum and theirs beside it.
is_made() {
  local noted=''
  { read -r noted <"$made.sums"; } 2>/dev/null && [ "$noted" = "$(sum_of "$made" 2>/dev/null) $sources" ]
}

# Sets `why`, for what lies in prebuilt/, to a line that says why it isn't what these sources make; empty where it is.
look_at_prebuilt() {
  local sums=$top/prebuilt/SUMS wanted='' of='' word name
  why=''
  if [ "$1" = bus_demo ]; then
    why="isn't in prebuilt/"
    return
  fi
  if [ ! -r "$sums" ]; then
    why="prebuilt/SUMS can't be read" is_damaged=yes
    return
  fi
  while read -r word name wanted of; do
    [ "$word $name" != "made $1" ] || break
  done <"$sums"
  if [[ "$word $name" != "made $1" || ! $wanted =~ ^[0-9a-f]{64}$ || ! $of =~ ^[0-9a-f]{64}$ ]]; then
    why="prebuilt/SUMS has no line of $1" is_damaged=yes
  elif [ "$of" != "$sources" ]; then
    why="prebuilt/$1 was made of other sources: $(first_other "$1") differs"
  elif [ "$wanted" != "$shipped" ] && ! is_packaged "$1"; then
    why="prebuilt/$1 isn't what prebuilt/SUMS says: it was cut short or changed"
  fi
}

# The first source of a product that isn't as it was when prebuilt/ was made.
first_other() {
  local other=''
  if [ -r "$top/prebuilt/SOURCES" ]; then
    other=$(list_sources | cat - "$top/prebuilt/SOURCES" | sources_of "$1" | LC_ALL=C sort -k 2 | uniq -u | sed -n 1p)
  fi
  other=${other##* }
  echo "${other:-prebuilt/SOURCES}"
}

# What is lacking to run or link what lies in prebuilt/ on this machine; nothing where nothing is.
lacking() {
  local needs machine=x86_64 word='' flags='' flag glibc
  if is_packaged "$1"; then
    echo "it lies in a package, and not in prebuilt/"
    return
  fi
  case $1 in
    j1939 | libj1939.a) needs="prebuilt/$1 is for Linux on x86-64-v2" ;;
    j1939-aarch64) needs="prebuilt/$1 is for Linux on aarch64" machine=aarch64 ;;
    *) return ;;
  esac
  [[ $1 = lib* ]] || needs+=' with glibc 2.34 or later'
  # As bash was told, which starts no other program.
  if [ "$OSTYPE $HOSTTYPE" != "linux-gnu $machine" ]; then
    echo "$needs, and this is $OSTYPE $HOSTTYPE"
    return
  fi
  if [ $machine = x86_64 ]; then
    while read -r word flags && [ "$word" != flags ]; do :; done </proc/cpuinfo
    for flag in cx16 lahf_lm popcnt sse4_1 sse4_2 ssse3; do
      if [[ " $flags " != *" $flag "* ]]; then
        echo "$needs, and this processor has no $flag"
        return
      fi
    done
  fi
  [[ $1 != lib* ]] || return 0
  glibc=$(getconf GNU_LIBC_VERSION 2>/dev/null) || glibc=none
  if [[ ! $glibc =~ ^glibc\ ([0-9]+)\.([0-9]+) ]] || [ $((BASH_REMATCH[1] * 1000 + BASH_REMATCH[2])) -lt 2034 ]; then
    echo "$needs, and this machine has $glibc"
  fi
}

# Builds a product by the kit, and notes of which sources. What is said of it goes to out/PRODUCT.log.
build_product() {
  local product=$1 log=$top/out/$1.log status=0 before=$sources
  mkdir -p "$top/out" && : >"$log" || return 1
  echo "$product: proving and building what has changed (out/$product.log); from nothing that takes half an hour on 4 cores" >&2
  case $product in
    j1939 | bus_demo) (cd "$top/crates/$product" && rt run -- --help) ;;
    libj1939.a) "$top/c/archive" ;;
    j1939.html) "$top/web/build" ;;
    j1939-aarch64) "$top/tools/portable/make" "$product" ;;
    *) if is_packaged "$product"; then "$top/tools/portable/make" "${packaged_products[@]}"; else "$top/tools/portable/make"; fi ;;
  esac >"$log" 2>&1 </dev/null || status=$?
  if [ "$status" -ne 0 ]; then
    tail -n 20 "$log" >&2
    echo "$product: not built" >&2
    return "$status"
  fi
  note_made "$product" "$before"
}

# Notes that what lies here was made of sources of this sum, unless they have changed since.
note_made() {
  sum_sources "$1"
  [ "$sources" != "$2" ] || echo "$(sum_of "$made") $sources" >"$made.sums"
}

# Sets `found` to a product that was made of these sources, or says why there is none.
find_product() {
  local sources shipped crate files made why is_damaged=''
  describe "$1"
  sum_sources "$1"
  found=$made
  if is_made; then return; fi
  look_at_prebuilt "$1"
  [ -n "$why" ] || why=$(lacking "$1")
  found=$top/prebuilt/$1
  if [ -z "$why" ]; then return; fi
  if [ -n "$is_damaged" ]; then
    echo "$1: $why (prebuilt/make writes it, git checkout prebuilt brings it back)" >&2
    return 1
  fi
  if ! command -v rt >/dev/null; then
    echo "$1: $why; to prove and build it here wants the Rattle kit, whose command rt is not on the path (README.md, Start)" >&2
    return 1
  fi
  echo "$1: $why" >&2
  found=$made
  # Two builds in one tree spoil one another: the second of a pipe waits for the first.
  {
    flock 9
    sum_sources "$1"
    is_made || build_product "$1" 9<&-
  } 9<"$top/crates.txt"
}

find_program() {
  program=${J1939_PROGRAM-}
  [ -n "$program" ] || { find_product "$program_here" && program=$found; }
}

find_library() {
  library=${J1939_LIBRARY-}
  [ -n "$library" ] || { find_product "$library_here" && library=$found; }
}

find_page() {
  page=${J1939_PAGE-}
  [ -n "$page" ] || { find_product j1939.html && page=$found; }
}

# Sets `demo` to the program bus_demo, which isn't shipped, where it was built here of these sources; it isn't built for that.
find_demo() {
  local crate files made sources shipped
  describe bus_demo
  sum_sources bus_demo
  # shellcheck disable=SC2034 # Who calls this uses it.
  demo=$made
  is_made
}

# Copies the tree into a folder that isn't there yet, without what was built in it.
copy_tree() {
  mkdir -p "$1" && tar -C "$top" --exclude-vcs --no-wildcards-match-slash --anchored \
    --exclude='./crates/*/out' --exclude='./*/out' --exclude=./out --exclude=./c/build --exclude=./dist -cf - . | tar -C "$1" -xf -
}
