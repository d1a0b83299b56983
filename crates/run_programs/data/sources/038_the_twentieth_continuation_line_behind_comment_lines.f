      I=1
     1+1
     2+1
     3+1
     4+1
C     BETWEEN
     5+1
     6+1
     7+1
     8+1
     9+1
C     BETWEEN
     A+1
     B+1
     C+1
     D+1
     E+1
C     BETWEEN
     F+1
     G+1
     H+1
     I+1
     J+1
C     BETWEEN
     K+1
      WRITE (6,20) I
   20 FORMAT (I3)
      END
