# stamp.sh: functions of ./test and ./package, which set `top` to the folder of the repository before.
# The stamp, bin/proved, says what ./test has proved and built: the checksum of the sources, the kit, the checksum of each file
# that was built, and, when all tests have passed, how many these are and at which commit.

# The checksum of all that is proved and built, in that folder. Documents are left out: nothing is built of them.
sum_of_sources() {
  (cd "$1" && find HANDLES VERSION crates crates.txt ffi scripts -name out -prune -o -type f ! -name '*.md' -print0 | LC_ALL=C sort -z \
    | xargs -0 sha256sum | sha256sum | cut -d ' ' -f 1)
}

# The files that are built of them and are packaged.
built_files() {
  echo crates/yamltok/out/yamltok
  echo ffi/out/libbogzhami.a
  echo "ffi/out/libbogzhami.so.$(cat "$top/VERSION")"
}

# Writes the stamp for sources of that checksum.
write_stamp() {
  mkdir -p "$top/bin"
  {
    echo "sources $1"
    echo "kit $(rt version)"
    (cd "$top" && built_files | xargs sha256sum)
  } > "$top/bin/proved"
}

# Whether this folder is a source package that was unpacked, and no checkout. Its debian/commit has the words of commit_of_tree
# and the time of that commit.
is_unpacked() {
  [ ! -e "$top/.git" ] && [ -f "$top/debian/commit" ]
}

# The commit that the tree is of, and whether it has changes.
commit_of_tree() {
  local changes=""
  ! is_unpacked || { head -n 1 "$top/debian/commit"; return; }
  git -C "$top" rev-parse --verify -q HEAD > /dev/null 2>&1 || { echo none; return; }
  [ -z "$(git -C "$top" status --porcelain)" ] || changes=", with changes"
  git -C "$top" log -1 --format="%H of %cs$changes"
}

# What the stamp has after that word; nothing if it has no such line.
stamped() {
  sed -n "s/^$1 //p" "$top/bin/proved"
}

# What is wrong with the stamp, in words; nothing if it is that of these sources and of the files that are there.
wrong_with_stamp() {
  if [ ! -f "$top/bin/proved" ]; then
    echo "there is no proved build: run ./test"
  elif [ "$(stamped sources)" != "$(sum_of_sources "$top")" ]; then
    echo "what ./test has proved is not these sources: run ./test again"
  elif ! (cd "$top" && grep -E '^[0-9a-f]{64} ' bin/proved | sha256sum --check --status 2> /dev/null); then
    echo "a built file is not the one that ./test has built: run ./test again"
  fi
}
