" Models and histories of the ACTA workbench.
autocmd BufNewFile,BufRead *.model,*.events,*.programs,*.kept setfiletype acta
