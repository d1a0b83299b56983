      I=7
      J=2
      WRITE (6,10) I+J*3,(I+J)*3,I-J-1,I-(J-1),I/J*J,I/(J*J),-I/J
      WRITE (6,10) -J**2,(-J)**2,J**3**2,(J**3)**2,2*J**3,-I+J,-(I+J)
      WRITE (6,10) +I*J,-I-J,I*J/3,I/3*J,36/6/2,36/(6/2),-J**2+I
   10 FORMAT (7I5)
      END
