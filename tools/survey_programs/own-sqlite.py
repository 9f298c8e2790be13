import sqlite3
c = sqlite3.connect('py.db')
c.execute('create table t(a)')
c.execute('insert into t values(3)')
c.commit()
print(c.execute('select a from t').fetchall())
