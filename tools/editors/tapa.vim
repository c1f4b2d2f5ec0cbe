" Vim: `:source tools/editors/tapa.vim`, then `:make examples/pipeline.cpp Pipeline` goes to the place that is told.
let s:top = fnamemodify(expand('<sfile>:p'), ':h:h:h')
let &makeprg = s:top . '/tapa run $* 2>&1 \| python3 ' . s:top . '/tools/explain.py --places'
set errorformat=tapa:\ %f:%l:%c:\ %m
