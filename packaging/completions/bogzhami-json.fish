# Words of bogzhami-json, for fish.
complete -c bogzhami-json -s e -l encoding -x -a 'any utf8 utf16le utf16be' -d 'the encoding of the input'
complete -c bogzhami-json -s l -l key-limit -x -d 'how far a simple key may reach, in bytes'
complete -c bogzhami-json -s h -l help -d 'print the options'
complete -c bogzhami-json -l version -d 'print the version'
