      END
      DO 10 I=1,2
      FORMAT(I5)
