#compdef termimad termimad-page
# Completions of termimad for zsh.
_termimad_skins() {
    _alternative 'names:name:(auto dark light sixteen none)' 'files:file:_files -g "*.json"'
}
# The languages, written by tools/code_tables.
_termimad_languages() {
    _values language c cmake console cpp csharp css diff dockerfile go haskell html ini java javascript json kotlin lisp lua make perl php protobuf pycon python ruby rust sh sql swift toml typescript xml yaml
}
_arguments -s \
    '(-w --width)'{-w+,--width=}'[write in so many columns]:columns:' \
    '--skin=[show it in this skin]:skin: _termimad_skins' \
    '--code=[show code of this language]:language: _termimad_languages' \
    '--links=[write links that a terminal can follow]:when:(auto always never)' \
    '--lines[show each line by itself, in the smaller grammar]' \
    "--plain[show text that isn't Markdown, with its colors]" \
    '--stream[write Markdown from a pipe as it comes]' \
    '--live[show it so on a terminal, redrawn in place]' \
    '--no-pager[write, and do not page]' \
    '-F[do not page what fits on one screen]' \
    '-X[page on the own screen of the terminal]' \
    '(- *)'{-h,--help}'[say the options]' \
    '(- *)'{-V,--version}'[say the version]' \
    '*:file:_files'
