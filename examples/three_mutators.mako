mako 1
servers 2
tablets 2
entries 16
words 64
spare 1
ring 4
roots 8
cycles 10
gens 100
board 4
mutator
new a 2
num x 10
put a 0 x
new b 2
num x 20
put b 0 x
put a 1 b
put board 0 a
drop a
drop b
end
mutator
get h board 0
get v h 0
get t h 1
get w t 0
end
mutator
new g 3
drop g
collect
end
