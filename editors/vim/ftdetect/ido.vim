" Made by tools/editor-files of tools/ido_tools/words.py: edit these.
autocmd BufRead,BufNewFile *.ido setfiletype ido | setlocal commentstring=//\ %s
