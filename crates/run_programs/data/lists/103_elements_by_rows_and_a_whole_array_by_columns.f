      INTEGER M(2,3)
      DATA ((M(I,J),J=1,3),I=1,2)/11,12,13,21,22,23/
      WRITE (6,10) ((M(I,J),J=1,3),I=1,2)
      WRITE (6,10) M
      WRITE (6,20) (M,I=1,2)
   10 FORMAT (3I3)
   20 FORMAT (12I3)
      END
