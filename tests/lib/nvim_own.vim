" What Neovim does with XML by itself, with xmllint, for the table of docs/EDITORS.md: writes a JSON object of what was found into the
" file that OWN_TOLD names. OWN_FOLDER holds "l.dtd", which is the letter's DTD with attributes.
set noswapfile shiftwidth=2 expandtab
let g:xml_syntax_folding = 1
" A data file, as `:help xml-omni-datafile` wants it: of each element the names that its declaration mentions, and its attributes.
let g:xmldata_letter = {'vimxmlentities': [], 'vimxmlroot': ['letter'],
  \ 'letter': [['opener', 'body', 'closer'], {'id': [], 'kind': ['private', 'business']}],
  \ 'opener': [['dateline', 'salute'], {}], 'dateline': [['place', 'date'], {}], 'place': [[], {}], 'date': [[], {}], 'salute': [[], {}],
  \ 'body': [['p', 'lb'], {}], 'p': [['person', 'place', 'date', 'lb'], {}], 'person': [[], {}], 'lb': [[], {}], 'closer': [['person'], {}]}
let s:doctype = '<!DOCTYPE letter SYSTEM "' .. $OWN_FOLDER .. '/l.dtd">'
let s:letter = '<letter id="a" kind="private">'

" A buffer with these lines, saved; the cursor is where they have a `|`.
func s:Open(lines)
  silent execute 'edit! ' .. tempname() .. '.xml'
  call setline(1, a:lines)
  if search('|', 'c')
    normal! x
  endif
  silent write
  XMLns letter
endfunc

func s:Text()
  return join(getline(1, '$'), "\n")
endfunc

" The text after these keys.
func s:Typed(keys)
  call feedkeys(a:keys, 'xt')
  return s:Text()
endfunc

" What `:make` finds in these lines: lines and messages.
func s:Made(lines, keys = '')
  call s:Open(a:lines)
  call feedkeys(a:keys, 'xt')
  silent write
  compiler xmllint
  silent make! %
  return map(filter(getqflist(), 'v:val.valid'), {_, each -> each.lnum .. ' ' .. each.text})
endfunc

" The names that C-X C-O offers after this is typed at the cursor.
func s:Completed(lines, typed)
  call s:Open(a:lines)
  func! Note() closure
    let s:found = map(copy(complete_info(['items']).items), {_, each -> each.word})
    return ''
  endfunc
  set completeopt=menuone,noinsert,noselect
  call feedkeys('i' .. a:typed .. "\<C-x>\<C-o>\<C-r>=Note()\<CR>\<Esc>", 'xt')
  set completeopt&
  return s:found
endfunc

func s:Rows()
  let told = {'version': matchstr(execute('version'), 'NVIM v\zs\d[0-9.]*')}
  let draft = [s:doctype, s:letter .. '<opener>Dear brother,</opener>', '<body><p>I have |met Mr Adams.</p></body></letter>']
  let told.draft = s:Made(draft)
  let told.swapped = s:Made([s:doctype, s:letter .. '<opener><salute>Dear brother,</salute></opener>', '<closer>Yours, Anna</closer>',
    \ '<body><p>I have met Mr Adams in Delft.</p></body></letter>'])
  let told.half = s:Made(draft, "i<\<Esc>")
  let told.formed = s:Made(['<a>', '<b></a>'])
  let told.entity = s:Made(['<!DOCTYPE a [<!ELEMENT a ANY><!ENTITY e "]]>">]>', '<a>&e;</a>'])
  let told.model = s:Made(['<?xml-model href="' .. $OWN_FOLDER .. '/l.dtd" type="application/xml-dtd"?>', '<letter/>'])
  let told.catalog = s:Made(['<!DOCTYPE letter SYSTEM "http://example.org/dtds/l.dtd">', '<letter/>'])
  let told.names = s:Completed(['<letter><opener/><body/> |'], '<')
  let told.mixed = s:Completed(['<letter><opener><salute/></opener><body><p>I |'], '<')
  let told.attributes = s:Completed(['|'], '<letter ')
  let told.values = s:Completed(['|'], '<letter kind="')
  let told.ends = s:Completed(['<letter><opener>|'], '</')
  " While `:make` runs nothing else does: a DTD that never comes is waited for, here for half a second.
  call s:Open(['<!DOCTYPE letter SYSTEM "' .. $OWN_FOLDER .. '/stalled.dtd">', '<letter/>'])
  let &l:makeprg = 'timeout 0.5 xmllint --valid --noout'
  let begun = reltime()
  silent make! %
  let told.stalled = reltimefloat(reltime(begun)) >= 0.5
  call s:Open(['|'])
  let told.required = s:Typed("i<let\<C-x>\<C-o>\<Esc>")
  call s:Open(['<a>', '<p>x', '</p>', '</a>'])
  setlocal foldmethod=syntax
  let told.folds = map(range(1, 4), {_, line -> foldlevel(line)})
  call cursor(1, 2)
  normal %
  let told.other = getcurpos()[1:2]
  call s:Open(['<a><p|>x</p></a>'])
  let told.pair = s:Typed("iq\<Esc>")
  call s:Open(['<a>', '<p>Some', '<b>bold</b>', 'words</p>', '</a>'])
  let told.formatted = s:Typed('gggqG')
  " The commands for XML, and what would look up a word or a tag.
  let told.commands = filter(sort(keys(nvim_get_commands({}))), {_, each -> each =~? 'xml'})
  let told.settings = [&l:keywordprg, &l:tagfunc, &l:define, &l:include]
  let told.maps = nvim_buf_get_keymap(0, 'n') + nvim_buf_get_keymap(0, 'x')
  return told
endfunc

try
  let s:told = s:Rows()
catch
  let s:told = {'fault': v:exception .. ' ' .. v:throwpoint}
endtry
call writefile([json_encode(s:told)], $OWN_TOLD)
qall!
