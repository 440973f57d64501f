import asprop
world = asprop.World('examples/hijack/links', [('10.0.0.0/8', 4), ('10.128.0.0/9', 6)],
                     payloads='examples/hijack/payloads.csv', watch=['10.128.0.1'])
script = asprop.Script()
script.report(1, '10.128.0.1')
script.policy(1, 'drop-invalid')
script.report(1, '10.128.0.1')
before, changed, after = asprop.run(world, script, program='./asprop')
print(before['total'].to, changed.entries, after['total'].to)
