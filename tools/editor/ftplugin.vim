" Vim: formatting by `gq`, and all mistakes in the quickfix list by `:make`. Put this file into ~/.vim/ftplugin as lucid.vim.
" With the plugin vim-lsp it also registers the language server. g:lucid_lsp is another command than lucid-lsp, as ['/path/to/tools/lsp'].
if exists('b:did_ftplugin') | finish | endif
let b:did_ftplugin = 1
setlocal commentstring=//\ %s comments=:// shiftwidth=2 expandtab
setlocal formatprg=lucid-fmt\ -
setlocal makeprg=lucid-tools\ explain\ --all\ --lint\ %:S
setlocal errorformat=%f:%l:%c:\ %trror:\ %m,%f:%l:%c:\ %tarning:\ %m,%-G%.%#
let b:undo_ftplugin = 'setlocal commentstring< comments< shiftwidth< expandtab< formatprg< makeprg< errorformat<'
if exists('*lsp#register_server') && !exists('g:lucid_registered')
  let g:lucid_registered = 1
  call lsp#register_server({'name': 'lucid', 'cmd': {_ -> get(g:, 'lucid_lsp', ['lucid-lsp'])}, 'allowlist': ['lucid']})
endif
