# source.sh: functions of ./package: the Debian changelog, and the source package, whose debian/ is made of packaging/debian/.

maintainer=$(sed -n 's/^Maintainer: //p' "$top/packaging/debian/libbogzhami-dev")

# Refuses a CHANGELOG.md without the version that is packaged, or with a version that has no date.
check_changelog() {
  local heading
  while read -r heading; do
    [[ $heading =~ ^##\ [0-9]+\.[0-9]+\.[0-9]+,\ [0-9]{4}-[0-9]{2}-[0-9]{2}$ ]] || refuse "CHANGELOG.md: '$heading' has no date"
  done < <(grep '^## ' "$top/CHANGELOG.md")
  heading=$(grep -m 1 '^## ' "$top/CHANGELOG.md")
  [ "${heading%,*}" = "## $version" ] || refuse "CHANGELOG.md: its newest version is not $version"
}

# CHANGELOG.md in the form of a Debian changelog: an entry for each version, at midnight of its date.
write_changelog() {
  awk -v newest="$full" -v maintainer="$maintainer" '
    function end_entry() { if (date != "") printf "\n -- %s  %s\n", maintainer, date }
    function put(word) {
      if (length(line) + 1 + length(word) > 78) { print line; line = "   " }
      line = line " " word
    }
    /^## / {
      end_entry()
      version = substr($2, 1, length($2) - 1)
      command = "LC_ALL=C date -u -R -d " $3
      command | getline date
      close(command)
      printf "%sbogzhami (%s) unstable; urgency=medium\n\n", newest != "" ? "" : "\n", newest != "" ? newest : version
      newest = ""
      next
    }
    date != "" && NF {
      sub(/^- /, "")
      line = "  *"
      for (i = 1; i <= NF; i++) put($i)
      print line
    }
    END { end_entry() }' "$top/CHANGELOG.md"
}

# The files of this tree that git knows, or would add.
list_sources() {
  (cd "$top" && git ls-files -z --cached --others --exclude-standard | while IFS= read -r -d '' file; do
    [ ! -e "$file" ] || printf '%s\0' "$file"
  done)
}

# The part of debian/control for each package that ./package makes. What depends on the machine is filled in when it is made.
write_source_control() {
  local file
  sed -e "s|@MAINTAINER@|$maintainer|; s|@HOMEPAGE@|$homepage|" "$top/packaging/debian/source/control"
  for file in "$top"/packaging/debian/*; do
    ! grep -qs '^Package: ' "$file" || {
      echo
      sed -E -e '/^(Source|Version|Maintainer|Installed-Size|Homepage|Priority|Section: libs$)/d' \
        -e "s|@MAJOR@|$major|; s|@ARCHITECTURE@|any|" -e 's|^Depends: .*|Depends: ${shlibs:Depends}, ${misc:Depends}|' "$file"
    }
  done
}

# LICENSE in the form that Debian's tools read.
write_source_copyright() {
  echo "Format: https://www.debian.org/doc/packaging-manuals/copyright-format/1.0/"
  printf '\nFiles: *\n'
  sed -n 's/^Copyright (c) /Copyright: /p' "$top/LICENSE"
  echo "License: Expat"
  sed -e '1,/^Copyright/d' "$top/LICENSE" | sed -e 1d -e 's/^$/./' -e 's/^/ /'
}

make_source_package() {
  local root=$work/bogzhami-$full
  if ! git -C "$top" rev-parse --verify -q HEAD > /dev/null 2>&1; then
    echo "package: skipped the source package: this is no checkout"
    return
  fi
  mkdir -p "$root/debian/source"
  list_sources | tar -C "$top" --null -T - -c | tar -C "$root" -x
  install -m 755 "$top/packaging/debian/source/rules" "$root/debian/rules"
  put "$root/debian" "$top/packaging/debian/source/README.source"
  put "$root/debian/source" "$top/packaging/debian/source/lintian-overrides"
  echo "3.0 (native)" > "$root/debian/source/format"
  write_source_control > "$root/debian/control"
  write_changelog > "$root/debian/changelog"
  write_source_copyright > "$root/debian/copyright"
  { commit_of_tree; echo "$SOURCE_DATE_EPOCH"; } > "$root/debian/commit"
  (cd "$dist" && dpkg-source -z2 -b "$root" > "$work/source.log" 2>&1) || refuse "dpkg-source: $(tail -n 3 "$work/source.log")"
}
