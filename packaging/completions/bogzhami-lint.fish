# Words of bogzhami-lint, for fish.
complete -c bogzhami-lint -s w -l width -x -d 'lines may have that many characters'
complete -c bogzhami-lint -s h -l help -d 'print the options'
complete -c bogzhami-lint -l version -d 'print the version'
