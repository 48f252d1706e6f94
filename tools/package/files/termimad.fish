# Completions of termimad for fish.
complete -c termimad -s w -l width -x -d 'Write in so many columns'
complete -c termimad -l skin -r -a 'auto dark light sixteen none' -d 'Show it in this skin'
complete -c termimad -l code -x -a 'c cmake console cpp csharp css diff dockerfile go haskell html ini java javascript json kotlin lisp lua make perl php protobuf pycon python ruby rust sh sql swift toml typescript xml yaml' -d 'Show code of this language' # the languages, written by tools/code_tables
complete -c termimad -l links -x -a 'auto always never' -d 'Write links that a terminal can follow'
complete -c termimad -l lines -d 'Show each line by itself, in the smaller grammar'
complete -c termimad -l plain -d "Show text that isn't Markdown, with its colors"
complete -c termimad -l stream -d 'Write Markdown from a pipe as it comes'
complete -c termimad -l live -d 'Show it so on a terminal, redrawn in place'
complete -c termimad -l no-pager -d 'Write, and do not page'
complete -c termimad -s F -d 'Do not page what fits on one screen'
complete -c termimad -s X -d 'Page on the own screen of the terminal'
complete -c termimad -s h -l help -d 'Say the options'
complete -c termimad -s V -l version -d 'Say the version'
