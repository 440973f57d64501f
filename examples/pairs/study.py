import asprop
study = asprop.study('../study/links', pairs=200, kinds=['same-prefix', 'sub-prefix'],
                     adopters=['%d%%' % share for share in range(0, 101, 10)], trials=3, seed=1, rows='out/rows.csv')
study.draw('out/figure.svg')
print(study.table())
