# Completions of dvgcheck for fish: put this file into ~/.config/fish/completions.
# tests/completions holds it to what the program's --help says.

# whether the words so far begin with these commands, and no more if the first of them is `only`
function __dvgcheck_in
    set -l words (commandline -opc)
    set -e words[1]
    if test "$argv[1]" = only
        set -e argv[1]
        test (count $words) -eq (count $argv); or return 1
    end
    set -l last (count $argv)
    test $last -eq 0; and return 0
    test (count $words) -ge $last; and test "$words[1..$last]" = "$argv"
end

complete -c dvgcheck -n '__dvgcheck_in only' -f
complete -c dvgcheck -n '__dvgcheck_in only' -s h -l help -d 'Prints help'
complete -c dvgcheck -n '__dvgcheck_in only' -s V -l version -d 'Prints the version'
complete -c dvgcheck -n '__dvgcheck_in only' -a frames -d 'Judges frames over a vector ROM'
complete -c dvgcheck -n '__dvgcheck_in only' -a check -d 'Judges a frame by a certificate'
complete -c dvgcheck -n '__dvgcheck_in only' -a make -d 'Makes a certificate of shapes'
complete -c dvgcheck -n '__dvgcheck_in only' -a places -d 'Prints where calls stay within the window'
complete -c dvgcheck -n '__dvgcheck_in only' -a diff -d 'Prints which shapes and frames a changed ROM touches'
complete -c dvgcheck -n '__dvgcheck_in only' -a recipe -d 'Judges all frames of a recipe'
complete -c dvgcheck -n '__dvgcheck_in only' -a belongs -d 'Tells which frames are a recipe\'s'
complete -c dvgcheck -n '__dvgcheck_in only' -a explain -d 'Explains the answer of a command'
complete -c dvgcheck -n '__dvgcheck_in only' -a rules -d 'Prints what each number means'
complete -c dvgcheck -n '__dvgcheck_in only' -a help -d 'Prints help'

complete -c dvgcheck -n '__dvgcheck_in frames' -l board -d 'Judges for a board of the DVG'
complete -c dvgcheck -n '__dvgcheck_in frames' -l rom -x -d 'The word addresses of the ROM\'s first and last word'
complete -c dvgcheck -n '__dvgcheck_in frames' -l cert -r -F -d 'Judges all frames by this certificate'
complete -c dvgcheck -n '__dvgcheck_in frames' -l budget -x -d 'How many words a frame may take at most'
complete -c dvgcheck -n '__dvgcheck_in frames' -l window -x -d 'Where the screen may be lit'
complete -c dvgcheck -n '__dvgcheck_in frames' -l clip -d 'Lets lit strokes reach from -1024 to 2047'
complete -c dvgcheck -n '__dvgcheck_in frames' -l start -x -d 'Judges each frame from this word address or label on'
complete -c dvgcheck -n '__dvgcheck_in frames' -l labels -r -F -d 'The labels of the program'
complete -c dvgcheck -n '__dvgcheck_in frames' -l clocks -d 'Tells how many clocks accepted frames take'
complete -c dvgcheck -n '__dvgcheck_in frames' -l within -x -d 'Refuses frames that may take longer'
complete -c dvgcheck -n '__dvgcheck_in frames' -l remarks -d 'Writes remarks on accepted frames, each as a line'
complete -c dvgcheck -n '__dvgcheck_in frames' -l records -x -d 'Takes each file as records of so many bytes, each a frame'
complete -c dvgcheck -n '__dvgcheck_in frames' -l list -r -F -d 'Judges the frames that this file names'
complete -c dvgcheck -n '__dvgcheck_in frames' -l null -d 'Names in the list end with NUL'
complete -c dvgcheck -n '__dvgcheck_in frames' -l only-refused -d 'Leaves out the lines of accepted frames'
complete -c dvgcheck -n '__dvgcheck_in frames' -l summary -d 'Ends with a line of counts'
complete -c dvgcheck -n '__dvgcheck_in frames' -s h -l help -d 'Prints help'

complete -c dvgcheck -n '__dvgcheck_in check' -l board -d 'Judges for a board of the DVG'
complete -c dvgcheck -n '__dvgcheck_in check' -l budget -x -d 'How many words a frame may take at most'
complete -c dvgcheck -n '__dvgcheck_in check' -l window -x -d 'Where the screen may be lit'
complete -c dvgcheck -n '__dvgcheck_in check' -l clip -d 'Lets lit strokes reach from -1024 to 2047'
complete -c dvgcheck -n '__dvgcheck_in check' -l exact -d 'Takes the certificate\'s words and depths as exact'
complete -c dvgcheck -n '__dvgcheck_in check' -s h -l help -d 'Prints help'

complete -c dvgcheck -n '__dvgcheck_in make' -l board -d 'Judges for a board of the DVG'
complete -c dvgcheck -n '__dvgcheck_in make' -l frame -r -F -d 'A frame; its calls become roots, too'
complete -c dvgcheck -n '__dvgcheck_in make' -l rom -x -d 'The word addresses of the ROM\'s first and last word'
complete -c dvgcheck -n '__dvgcheck_in make' -l labels -r -F -d 'The labels of the program'
complete -c dvgcheck -n '__dvgcheck_in make' -s o -l output -r -F -d 'Writes the certificate to this file'
complete -c dvgcheck -n '__dvgcheck_in make' -s h -l help -d 'Prints help'

complete -c dvgcheck -n '__dvgcheck_in places' -l board -d 'Judges for a board of the DVG'
complete -c dvgcheck -n '__dvgcheck_in places' -l frame -r -F -d 'A frame; its calls become roots, too'
complete -c dvgcheck -n '__dvgcheck_in places' -l rom -x -d 'The word addresses of the ROM\'s first and last word'
complete -c dvgcheck -n '__dvgcheck_in places' -l labels -r -F -d 'The labels of the program'
complete -c dvgcheck -n '__dvgcheck_in places' -l window -x -d 'Where the screen may be lit'
complete -c dvgcheck -n '__dvgcheck_in places' -l clip -d 'Lets lit strokes reach from -1024 to 2047'
complete -c dvgcheck -n '__dvgcheck_in places' -s h -l help -d 'Prints help'
complete -c dvgcheck -n '__dvgcheck_in diff' -l board -d 'Judges for a board of the DVG'
complete -c dvgcheck -n '__dvgcheck_in diff' -l frame -r -F -d 'A frame; its calls become roots, too'
complete -c dvgcheck -n '__dvgcheck_in diff' -l rom -x -d 'The word addresses of the ROM\'s first and last word'
complete -c dvgcheck -n '__dvgcheck_in diff' -l labels -r -F -d 'The labels of the program'
complete -c dvgcheck -n '__dvgcheck_in diff' -s h -l help -d 'Prints help'

complete -c dvgcheck -n '__dvgcheck_in recipe' -l board -d 'Changes nothing'
complete -c dvgcheck -n '__dvgcheck_in recipe' -l rom -x -d 'The word addresses of the ROM\'s first and last word'
complete -c dvgcheck -n '__dvgcheck_in recipe' -l budget -x -d 'How many words a frame may take at most'
complete -c dvgcheck -n '__dvgcheck_in recipe' -l window -x -d 'Where the screen may be lit'
complete -c dvgcheck -n '__dvgcheck_in recipe' -l clip -d 'Lets lit strokes reach from -1024 to 2047'
complete -c dvgcheck -n '__dvgcheck_in recipe' -l labels -r -F -d 'The labels of the program'
complete -c dvgcheck -n '__dvgcheck_in recipe' -l clocks -d 'Tells how many clocks frames take at most'
complete -c dvgcheck -n '__dvgcheck_in recipe' -l within -x -d 'Refuses recipes with frames that may take longer'
complete -c dvgcheck -n '__dvgcheck_in recipe' -s o -l output -r -F -d 'Writes a frame that shows a refusal to this file'
complete -c dvgcheck -n '__dvgcheck_in recipe' -l print -r -F -d 'Prints the one spelling of this recipe'
complete -c dvgcheck -n '__dvgcheck_in recipe' -s h -l help -d 'Prints help'

complete -c dvgcheck -n '__dvgcheck_in belongs' -l board -d 'Changes nothing'
complete -c dvgcheck -n '__dvgcheck_in belongs' -l rom -x -d 'The word addresses of the ROM\'s first and last word'
complete -c dvgcheck -n '__dvgcheck_in belongs' -l labels -r -F -d 'The labels of the program'
complete -c dvgcheck -n '__dvgcheck_in belongs' -l records -x -d 'Takes each file as records of so many bytes, each a frame'
complete -c dvgcheck -n '__dvgcheck_in belongs' -l list -r -F -d 'Judges the frames that this file names'
complete -c dvgcheck -n '__dvgcheck_in belongs' -l null -d 'Names in the list end with NUL'
complete -c dvgcheck -n '__dvgcheck_in belongs' -l only-outside -d 'Leaves out the lines of frames that belong'
complete -c dvgcheck -n '__dvgcheck_in belongs' -l summary -d 'Ends with a line of counts'
complete -c dvgcheck -n '__dvgcheck_in belongs' -s h -l help -d 'Prints help'

complete -c dvgcheck -n '__dvgcheck_in only explain' -f
complete -c dvgcheck -n '__dvgcheck_in only explain' -s h -l help -d 'Prints help'
complete -c dvgcheck -n '__dvgcheck_in only explain' -a frames -d 'Judges frames over a vector ROM'
complete -c dvgcheck -n '__dvgcheck_in only explain' -a check -d 'Judges a frame by a certificate'
complete -c dvgcheck -n '__dvgcheck_in only explain' -a make -d 'Makes a certificate of shapes'
complete -c dvgcheck -n '__dvgcheck_in only explain' -a diff -d 'Tells how a dump differs from a vector ROM'
complete -c dvgcheck -n '__dvgcheck_in only explain' -a belongs -d 'Tells where frames leave a recipe'
complete -c dvgcheck -n '__dvgcheck_in only explain' -a recipe -d 'Tells why a recipe is refused, or what is known in it'
complete -c dvgcheck -n '__dvgcheck_in only explain' -a help -d 'Prints help'

complete -c dvgcheck -n '__dvgcheck_in explain frames' -l board -d 'Judges for a board of the DVG'
complete -c dvgcheck -n '__dvgcheck_in explain frames' -l rom -x -d 'The word addresses of the ROM\'s first and last word'
complete -c dvgcheck -n '__dvgcheck_in explain frames' -l cert -r -F -d 'Judges all frames by this certificate'
complete -c dvgcheck -n '__dvgcheck_in explain frames' -l budget -x -d 'How many words a frame may take at most'
complete -c dvgcheck -n '__dvgcheck_in explain frames' -l window -x -d 'Where the screen may be lit'
complete -c dvgcheck -n '__dvgcheck_in explain frames' -l clip -d 'Lets lit strokes reach from -1024 to 2047'
complete -c dvgcheck -n '__dvgcheck_in explain frames' -l start -x -d 'Judges each frame from this word address or label on'
complete -c dvgcheck -n '__dvgcheck_in explain frames' -l labels -r -F -d 'The labels of the program'
complete -c dvgcheck -n '__dvgcheck_in explain frames' -l clocks -d 'Tells how many clocks accepted frames take'
complete -c dvgcheck -n '__dvgcheck_in explain frames' -l within -x -d 'Refuses frames that may take longer'
complete -c dvgcheck -n '__dvgcheck_in explain frames' -l records -x -d 'Takes each file as records of so many bytes, each a frame'
complete -c dvgcheck -n '__dvgcheck_in explain frames' -l list -r -F -d 'Explains the frames that this file names'
complete -c dvgcheck -n '__dvgcheck_in explain frames' -l null -d 'Names in the list end with NUL'
complete -c dvgcheck -n '__dvgcheck_in explain frames' -l only-refused -d 'Leaves out the accounts of accepted frames'
complete -c dvgcheck -n '__dvgcheck_in explain frames' -l summary -d 'Ends with lines of counts'
complete -c dvgcheck -n '__dvgcheck_in explain frames' -s h -l help -d 'Prints help'

complete -c dvgcheck -n '__dvgcheck_in explain check' -l board -d 'Judges for a board of the DVG'
complete -c dvgcheck -n '__dvgcheck_in explain check' -l budget -x -d 'How many words a frame may take at most'
complete -c dvgcheck -n '__dvgcheck_in explain check' -l window -x -d 'Where the screen may be lit'
complete -c dvgcheck -n '__dvgcheck_in explain check' -l clip -d 'Lets lit strokes reach from -1024 to 2047'
complete -c dvgcheck -n '__dvgcheck_in explain check' -l exact -d 'Takes the certificate\'s words and depths as exact'
complete -c dvgcheck -n '__dvgcheck_in explain check' -l labels -r -F -d 'The labels of the program'
complete -c dvgcheck -n '__dvgcheck_in explain check' -s h -l help -d 'Prints help'

complete -c dvgcheck -n '__dvgcheck_in explain make' -l board -d 'Judges for a board of the DVG'
complete -c dvgcheck -n '__dvgcheck_in explain make' -l frame -r -F -d 'A frame; its calls become roots, too'
complete -c dvgcheck -n '__dvgcheck_in explain make' -l rom -x -d 'The word addresses of the ROM\'s first and last word'
complete -c dvgcheck -n '__dvgcheck_in explain make' -l labels -r -F -d 'The labels of the program'
complete -c dvgcheck -n '__dvgcheck_in explain make' -s h -l help -d 'Prints help'

complete -c dvgcheck -n '__dvgcheck_in explain diff' -l rom -x -d 'The word addresses of the ROM\'s first and last word'
complete -c dvgcheck -n '__dvgcheck_in explain diff' -l labels -r -F -d 'The labels of the program'
complete -c dvgcheck -n '__dvgcheck_in explain diff' -s h -l help -d 'Prints help'

complete -c dvgcheck -n '__dvgcheck_in explain belongs' -l board -d 'Changes nothing'
complete -c dvgcheck -n '__dvgcheck_in explain belongs' -l rom -x -d 'The word addresses of the ROM\'s first and last word'
complete -c dvgcheck -n '__dvgcheck_in explain belongs' -l labels -r -F -d 'The labels of the program'
complete -c dvgcheck -n '__dvgcheck_in explain belongs' -l records -x -d 'Takes each file as records of so many bytes, each a frame'
complete -c dvgcheck -n '__dvgcheck_in explain belongs' -s h -l help -d 'Prints help'

complete -c dvgcheck -n '__dvgcheck_in explain recipe' -l board -d 'Changes nothing'
complete -c dvgcheck -n '__dvgcheck_in explain recipe' -l rom -x -d 'The word addresses of the ROM\'s first and last word'
complete -c dvgcheck -n '__dvgcheck_in explain recipe' -l budget -x -d 'How many words a frame may take at most'
complete -c dvgcheck -n '__dvgcheck_in explain recipe' -l window -x -d 'Where the screen may be lit'
complete -c dvgcheck -n '__dvgcheck_in explain recipe' -l clip -d 'Lets lit strokes reach from -1024 to 2047'
complete -c dvgcheck -n '__dvgcheck_in explain recipe' -l labels -r -F -d 'The labels of the program'
complete -c dvgcheck -n '__dvgcheck_in explain recipe' -s h -l help -d 'Prints help'

complete -c dvgcheck -n '__dvgcheck_in rules' -f
complete -c dvgcheck -n '__dvgcheck_in rules' -s h -l help -d 'Prints help'
