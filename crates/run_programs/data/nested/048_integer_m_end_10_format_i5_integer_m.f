      INTEGER M
      END
10    FORMAT(I5)
      INTEGER M
