      PARAMETER (I=.TRUE.)
      INTEGER I
      LOGICAL I
      END
