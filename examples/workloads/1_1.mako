mako 1
servers 4
tablets 2
entries 32
words 128
spare 1
ring 4
roots 8
cycles 1000
gens 1000000
board 8
mutator
new va 2
new vb 2
new vc 2
new vd 2
new ve 2
new vf 2
put vc 1 vc
end
mutator
new va 2
new vb 2
new vc 2
new vd 2
new ve 2
new vf 2
put board 0 va
end
mutator
new va 2
new vb 2
new vc 2
new vd 2
new ve 2
new vf 2
new vc 4
end
mutator
new va 2
new vb 2
new vc 2
new vd 2
new ve 2
new vf 2
new vc 1
end
