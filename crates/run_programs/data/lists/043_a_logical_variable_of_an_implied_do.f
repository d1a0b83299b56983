      LOGICAL L
      PRINT 10,(I,L=1,3)
   10 FORMAT (I3)
      END
