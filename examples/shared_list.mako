mako 1
servers 2
tablets 1
entries 8
words 32
spare 1
ring 2
roots 4
cycles 0
gens 8
board 1
mutator
new head 2
num n 1
put head 0 n
put board 0 head
show head
show head
show head
show head
show head
show head
show head
show head
show head
show head
get tail head 1
get n tail 0
end
mutator
new tail 2
num n 2
put tail 0 n
show tail
show tail
show tail
show tail
get head board 0
get n head 0
put head 1 tail
end
