mako 1
servers 1
tablets 1
entries 2
words 16
spare 1
ring 2
roots 4
cycles 10
gens 1
board 1
mutator
new a 0
drop a
new b 0
end
