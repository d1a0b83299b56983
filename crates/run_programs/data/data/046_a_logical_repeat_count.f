      LOGICAL YES
      PARAMETER (YES=.TRUE.)
      DATA I/YES*5/
      END
