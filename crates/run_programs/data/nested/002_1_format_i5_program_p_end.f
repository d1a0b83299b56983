1     FORMAT(I5)
      PROGRAM P
      END
