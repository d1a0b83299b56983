      WRITE (6,10) (I,I=3,1,-1),I,(J,J=1,6,2),J,(K,K=-1,-7,-4),K
   10 FORMAT (12I3)
      END
