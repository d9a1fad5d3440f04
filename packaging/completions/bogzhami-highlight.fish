# Words of bogzhami-highlight, for fish.
complete -c bogzhami-highlight -l html -d 'write a page'
complete -c bogzhami-highlight -s h -l help -d 'print the options'
complete -c bogzhami-highlight -l version -d 'print the version'
