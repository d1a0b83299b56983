      PROGRAM P
      INTEGER M
10    FORMAT(I5)
      J=1
20    FORMAT(I5)
      INTEGER M
      INTEGER M
      END
