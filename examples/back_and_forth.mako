mako 1
servers 2
tablets 1
entries 6
words 16
spare 1
ring 1
roots 11
cycles 10
gens 8
board 1
mutator
new a 1
new b 1
new c 1
new d 1
new e 1
new f 1
new g 1
new h 1
new i 1
new j 1
put a 0 f
put f 0 b
put b 0 g
put g 0 c
put c 0 h
put h 0 d
put d 0 i
put i 0 e
put e 0 j
drop b
drop c
drop d
drop e
drop f
drop g
drop h
drop i
drop j
collect
end
