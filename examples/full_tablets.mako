mako 1
servers 2
tablets 1
entries 2
words 16
spare 1
ring 2
roots 6
cycles 0
gens 8
board 1
mutator
new a 0
new b 14
new c 0
new d 0
show c
end
