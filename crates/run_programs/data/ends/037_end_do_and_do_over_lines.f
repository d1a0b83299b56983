      D
     1O
     2I=1,
     33
      K=K+I
      E
     1N
     2D
     3DO
      DO 1
     10 J=1,2
      K=K+J
   10 END
C     A COMMENT LINE BETWEEN
     1 DO
      WRITE (6,20) I,J,K
   20 FORMAT (3I4)
      END
