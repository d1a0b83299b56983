      END
10    FORMAT(I5)
