      J=1
      WRITE(6,9)
10    FORMAT(I5)
